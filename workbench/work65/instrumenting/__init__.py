"""Locates the lines of a program: assembles a copy with marks, checks that it is the same program, and reads the marks."""
