"""work65 labels: all labels of a program, in the formats of emulators."""
import argparse
import os
from typing import Iterator, List

from work65.formats.label_files import FORMATS, fceux, fceux_files
from work65.frontend.link_script import OUTPUT
from work65.instrumenting.build import add_arguments as add_build_arguments, build, wanted_of
from work65.instrumenting.copies import Constants
from work65.instrumenting.names import NamedAddress, all_names
from work65.output import write
from work65.problem import Problem
from work65.program import Program
from work65.signals import folder_for_a_while

# A symbol of the script is the name of a register of the NES, or a number that is no address.
REGISTERS = range(0x2000, 0x6000)
HELP = "write all labels of a program, exported or not, in an emulator's format"


def add_arguments(parser: argparse.ArgumentParser) -> None:
    """Adds the arguments of this subcommand."""
    add_build_arguments(parser)
    parser.add_argument("--format", choices=tuple(FORMATS), default="vice", help="the format of the labels (default: vice)")
    said = "the file for the labels (default: standard output); for fceux the cartridge, beside which they are written"
    parser.add_argument("-o", dest="output", metavar="FILE", help=said)


def encoded(lines: Iterator[str]) -> bytes:
    """Returns the bytes of lines."""
    return "".join(f"{it}\n" for it in lines).encode("latin-1")


def write_beside(output: str, image: bytes, names: List[NamedAddress]) -> None:
    """Writes FCEUX's files beside the cartridge's."""
    if os.path.isdir(output):
        raise Problem(f"{output}: Is a directory")
    for suffix, part in sorted(fceux_files(image, names).items()):
        write(f"{output}.{suffix}.nl", encoded(fceux(image, part)))


def run(arguments: argparse.Namespace) -> int:
    """Runs the subcommand. Returns the exit status."""
    program = Program.find(arguments.bin65)
    with folder_for_a_while() as folder:
        built = build(program, wanted_of(arguments), folder, Constants.LABELS)
    names, image = all_names(built), built.files.get(OUTPUT, b"")
    if arguments.format in ("mesen", "fceux"):
        symbols = built.layout.script.exports
        names = [it for it in names if it.name not in symbols or it.address in REGISTERS]
    if arguments.format == "fceux" and arguments.output is not None:
        write_beside(arguments.output, image, names)
    else:
        write(arguments.output, encoded(FORMATS[arguments.format](image, names)))
    return 0
