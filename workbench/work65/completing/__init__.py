"""Completions of command lines for bash, zsh and fish, made from the tables of argparse."""
