"""Formats of files: bin65's objects and maps, cc65's debug file, pictures."""
