"""Reads cc65's language and linker scripts for all commands: tokens, statements, expressions, included files. Accepts more than bin65."""
