"""work65 deps: rules for make with the files that a source includes."""
import argparse
import os
import sys
from typing import List

from work65.instrumenting.build import add_assembler_arguments
from work65.instrumenting.dependencies import Dependencies, dependencies_of
from work65.instrumenting.sources import Closure
from work65.output import write
from work65.problem import Problem
from work65.program import Program
from work65.signals import folder_for_a_while

HELP = "write rules for make: the files that a source reads by .include and .incbin"


def add_arguments(parser: argparse.ArgumentParser) -> None:
    """Adds the arguments of this subcommand."""
    add_assembler_arguments(parser)
    parser.add_argument("-o", dest="output", metavar="FILE", help="the file for the rules (default: standard output)")
    parser.add_argument("--object", metavar="FILE", help="the target of the rule, for one source (default: the source's name with .o)")
    parser.add_argument("sources", nargs="+", metavar="SOURCE", help="a source")


def escaped(name: str) -> str:
    """Returns a file name in the syntax of make."""
    return name.replace("$", "$$").replace("#", "\\#").replace(" ", "\\ ").replace(":", "\\:")


def object_of(source: str) -> str:
    """Returns the name that ca65 gives to the object of a source."""
    folder, name = os.path.split(source)
    return os.path.join(folder, os.path.splitext(name)[0] + ".o")


def rule(found: Dependencies, target: str) -> str:
    """Returns the rule of a source. An existing file has an empty rule of its own, so that make continues after it is removed."""
    files = [it for it in found.files if it not in found.missing]
    text = f"{escaped(target)}: {' '.join(map(escaped, [found.source, *found.files]))}\n"
    return text + "".join(f"{escaped(it)}:\n" for it in files)


def complain(found: List[Dependencies]) -> int:
    """Reports missing files and errors. Returns the exit status."""
    for it in found:
        for name in it.missing:
            print(f"work65: {it.source}: {name} isn't there", file=sys.stderr)
        if it.fault is not None:
            print(f"work65: {it.source}: not followed to its end: {it.fault}", file=sys.stderr)
    return int(any(it.missing or it.fault for it in found))


def run(arguments: argparse.Namespace) -> int:
    """Runs the subcommand. Returns the exit status."""
    if arguments.object is not None and len(arguments.sources) > 1:
        raise Problem("--object requires exactly one source", 2)
    program = Program.find(arguments.bin65)
    closures = [Closure(it, arguments.folders) for it in arguments.sources]
    with folder_for_a_while() as folder:
        found = dependencies_of(program, closures, [f"-D{it}" for it in arguments.defines], folder)
    rules = "".join(rule(it, arguments.object or object_of(it.source)) for it in found)
    write(arguments.output, os.fsencode(rules))
    return complain(found)
