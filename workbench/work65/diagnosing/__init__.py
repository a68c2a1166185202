"""bin65's messages: their forms, their causes, and the search for all errors of a source."""
