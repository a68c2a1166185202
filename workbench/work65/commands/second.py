"""work65 second: builds a cc65 project with cc65's tools and with bin65, and compares the images. Changes nothing in the project."""
import argparse
import os
from typing import Optional, Sequence

from work65.problem import Problem

# Modules of `port` are imported in functions, since a check of one link needs none of them.
# How objects and libraries of cc65's begin.
MADE_BY_CC65 = (b"Uzna", b"naUz")
HELP = "report whether bin65 makes the same image of an unchanged cc65 project"
USAGE = """work65 second [--keep DIR] [--json] -- COMMAND ..
       work65 second [--keep DIR] [--json] ld65 ARGUMENT ..
       work65 second [options] -C SCRIPT SOURCE .."""
EPILOG = """With a COMMAND, like `make`, each link of the build is linked by bin65, too, from cc65's objects and libraries. After `ld65`, one link
is, by the arguments of ld65. --keep leaves in DIR what bin65 linked; --json prints the results as JSON. All other options are for sources that
bin65 assembles itself."""


def run_words(words: Sequence[str]) -> Optional[int]:
    """Checks the links of a build, or one link, by cc65's objects; None for a command line that names sources."""
    from work65.linking import builds

    return builds.run_words(words)


def add_arguments(parser: argparse.ArgumentParser) -> None:
    """Adds the arguments of this subcommand."""
    from work65.commands.port import add_options

    parser.usage, parser.epilog = USAGE, EPILOG
    add = parser.add_argument
    add("-C", dest="script", metavar="SCRIPT", required=True, help="the linker script, as for ld65")
    add_options(parser)
    add("--library", dest="libraries", action="append", default=[], metavar="NAME=FOLDER|FILES",
        help="a library of the sources in FOLDER, or of FILE,FILE.. in this order, after all sources")
    add("--image", metavar="FILE", help="the image to compare with, instead of cc65's build")
    add("sources", nargs="+", metavar="SOURCE", help="the sources, in link order")


def run(arguments: argparse.Namespace) -> int:
    """Compares. Returns 0 for the same image, 1 for another one, and 2 if nothing can be compared."""
    from work65.porting.program import NOT_COMPARED

    try:
        return compared(arguments)
    except Problem as problem:
        raise Problem(str(problem), NOT_COMPARED) from problem


def compared(arguments: argparse.Namespace) -> int:
    """Compares, and prints the result."""
    from work65.commands.port import options_of
    from work65.frontend.files import read_bytes
    from work65.instrumenting.library import sources_of
    from work65.porting.program import Comparison, SecondOptions
    from work65.porting.script_files import place_of
    from work65.porting.tools import missing
    from work65.porting.verify import Library
    from work65.program import Program
    from work65.signals import folder_for_a_while

    lacking = missing()
    if lacking is not None and arguments.image is None:
        raise Problem(f"cc65's {lacking} isn't on the path; give an image to compare with by --image")
    program = Program.find(arguments.bin65)
    libraries = [Library(it.partition("=")[0], sources_of(it, program)) for it in arguments.libraries]
    script = place_of(arguments.script)
    for it in [script, *arguments.sources, *(member for library in libraries for member in library.members)]:
        if not os.path.isfile(it):
            raise Problem(f"{it}: no such file")
        if read_bytes(it)[:4] in MADE_BY_CC65:
            raise Problem(f"{it}: an object or a library of cc65's: give its sources instead, those of a library by --library")
    line = SecondOptions(script, arguments.sources, libraries, options_of(arguments), arguments.image)
    with folder_for_a_while() as room:
        answer = Comparison(program, line, room, lacking is None).answer()
    for said in answer.lines:
        print(said)
    return answer.status
