"""work65 debug: the debug file that cc65's linker writes with --dbgfile."""
import argparse
import os

from work65.formats.debug_file import debug_file
from work65.instrumenting.build import add_arguments as add_build_arguments, build, wanted_of
from work65.instrumenting.copies import Constants
from work65.output import write
from work65.program import Program
from work65.signals import folder_for_a_while

HELP = "write the debug file that cc65's linker writes with --dbgfile, for stepping through sources"


def add_arguments(parser: argparse.ArgumentParser) -> None:
    """Adds the arguments of this subcommand."""
    add_build_arguments(parser)
    parser.add_argument("-o", dest="output", metavar="FILE.dbg", required=True, help="the debug file")


def run(arguments: argparse.Namespace) -> int:
    """Runs the subcommand. Returns the exit status."""
    program = Program.find(arguments.bin65)
    with folder_for_a_while() as folder:
        built = build(program, wanted_of(arguments), folder, Constants.ALL)
    write(arguments.output, os.fsencode(debug_file(built)))
    return 0
