"""Translates objects and libraries of cc65's tools to bin65's formats."""
