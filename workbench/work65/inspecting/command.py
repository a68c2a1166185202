"""What the commands share that inspect a linked program: their arguments, and the program."""
import argparse
import json
import os
from contextlib import contextmanager
from typing import Iterable, Iterator

from work65.inspecting.from_build import linked_program
from work65.inspecting.from_debug import linked_program_of
from work65.inspecting.linked import LinkedProgram
from work65.instrumenting.build import add_arguments as add_build_arguments, build, wanted_of
from work65.instrumenting.copies import Constants
from work65.output import write
from work65.problem import Problem
from work65.program import Program
from work65.signals import folder_for_a_while


def add_arguments(parser: argparse.ArgumentParser) -> None:
    """Adds the arguments of a build, those that replace it by a build of cc65, and --json."""
    add_build_arguments(parser, is_required=False)
    said = "inspect cc65's build by ld65's debug file, in place of a build of SOURCE.."
    parser.add_argument("--dbgfile", metavar="FILE.dbg", help=said)
    parser.add_argument("--json", action="store_true", help="write JSON")


@contextmanager
def bad_input() -> Iterator[None]:
    """Makes the exit status of a Problem 2, since 1 says that something was found."""
    try:
        yield
    except Problem as problem:
        raise Problem(str(problem), 2) from problem


def is_of_cc65(arguments: argparse.Namespace) -> bool:
    """Returns whether a command line inspects a build of cc65. Raises a Problem if an argument is
    missing or has no meaning."""
    if arguments.dbgfile is None:
        if arguments.script is None or not arguments.sources:
            raise Problem("-C SCRIPT and SOURCE.. are required, or --dbgfile FILE.dbg", 2)
    elif arguments.sources or arguments.folders or arguments.defines or arguments.libraries:
        raise Problem("with --dbgfile, give no sources, -I, -D or --library", 2)
    return arguments.dbgfile is not None


def inspected(arguments: argparse.Namespace) -> LinkedProgram:
    """Returns the linked program of a command line."""
    with bad_input(), folder_for_a_while() as folder:
        if is_of_cc65(arguments):
            return linked_program_of(arguments.dbgfile, arguments.image, arguments.script)
        program = Program.find(arguments.bin65)
        return linked_program(build(program, wanted_of(arguments), folder, Constants.ALL))


def write_lines(lines: Iterable[str]) -> None:
    """Writes lines to standard output."""
    write(None, os.fsencode("".join(f"{line}\n" for line in lines)))


def write_json(values: object) -> None:
    """Writes values as JSON to standard output."""
    write_lines([json.dumps(values, indent=2)])
