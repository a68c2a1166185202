"""work65 completion: a script with which a shell completes the words of a command line."""
import argparse

from work65.completing.scripts import PROGRAMS, SHELLS, script_of
from work65.output import write

HELP = "write a script that completes command lines in bash, zsh or fish"


def add_arguments(parser: argparse.ArgumentParser) -> None:
    """Adds what this subcommand takes."""
    parser.add_argument("shell", metavar="SHELL", choices=tuple(SHELLS), help="bash, zsh or fish")
    parser.add_argument("program", metavar="PROGRAM", choices=PROGRAMS, nargs="?", default=PROGRAMS[0], help="work65 or bin65 (default: work65)")


def run(arguments: argparse.Namespace) -> int:
    """Writes the script to standard output."""
    write(None, script_of(arguments.shell, arguments.program).encode())
    return 0
