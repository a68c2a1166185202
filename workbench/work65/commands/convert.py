"""work65 convert: cc65's objects and libraries as bin65's."""
import argparse
import os
from typing import Dict, Iterable, List, Optional

from work65.frontend.files import read_bytes
from work65.output import write
from work65.problem import Problem, complain
from work65.translating.cc65_objects import CcObject, Export, Kind, kind_of
from work65.translating.cc65_objects import read_library, read_object
from work65.translating.r65_libraries import write_library
from work65.translating.translation import LinkFacts, translated

HELP = "convert objects and libraries of cc65's tools to bin65's formats"
# The tables of routines that cc65's linker makes, by their number.
TABLES = {0: "constructor", 1: "destructor", 2: "interruptor"}
MOST_NAMED = 4


def add_arguments(parser: argparse.ArgumentParser) -> None:
    """Adds the arguments of this subcommand."""
    add = parser.add_argument
    add("-o", dest="output", metavar="PATH",
        help="the converted file, or a folder for them (default: this folder)")
    add("files", nargs="+", metavar="FILE", help="an object or a library of cc65's")


def output_of(name: str, wanted: Optional[str], count: int) -> str:
    """Returns where a file's conversion is written."""
    is_folder = wanted is None or os.path.isdir(wanted) or wanted.endswith("/")
    if not is_folder and count > 1:
        raise Problem(f"{wanted}: no folder, and there are {count} files to convert", 2)
    path = os.path.join(wanted or "", os.path.basename(name)) if is_folder else wanted or ""
    if os.path.exists(path) and os.path.samefile(path, name):
        raise Problem(f"{name}: it would be overwritten; name another file or folder by -o", 2)
    return path


def listed(exports: Iterable[Export], name: str) -> None:
    """Prints a note on routines in tables that only cc65's linker makes."""
    kinds = [(it.name, kind) for it in exports for kind, _ in it.condes]
    names = [f"{it} ({TABLES.get(kind, f'table {kind}')})" for it, kind in kinds]
    if names:
        more = f" and {len(names) - MOST_NAMED} more" if len(names) > MOST_NAMED else ""
        what = "the linker of bin65 makes no tables of routines"
        complain(f"{name}: {what}: {', '.join(names[:MOST_NAMED])}{more}")


def converted_object(obj: CcObject, exports: List[Export]) -> bytes:
    """Converts an object. Adds its exports to a list."""
    exports += obj.exports
    return translated(obj, LinkFacts(keeps_empty=False))


def converted(data: bytes, name: str) -> bytes:
    """Converts a file."""
    exports: List[Export] = []
    kind = kind_of(data)
    if kind is None:
        if data[:3] == b"R65":
            raise Problem(f"{name}: already an object or a library of bin65's")
        raise Problem(f"{name}: no object and no library of cc65's")
    if kind is Kind.OBJECT:
        found = converted_object(read_object(data, name), exports)
    else:
        members = read_library(data, name)
        objects = (converted_object(it.object(), exports) for it in members)
        found = write_library(zip((it.name for it in members), objects), name)
    listed(exports, name)
    return found


def run(arguments: argparse.Namespace) -> int:
    """Converts all files, and writes them only if all can be converted. Returns the exit status."""
    results: Dict[str, bytes] = {}
    for name in arguments.files:
        data = read_bytes(name)
        path = output_of(name, arguments.output, len(arguments.files))
        if path in results:
            raise Problem(f"{path}: two files would be written there", 2)
        results[path] = converted(data, name)
    if arguments.output and arguments.output.endswith("/"):
        os.makedirs(arguments.output, exist_ok=True)
    for path, result in results.items():
        write(path, result)
    return 0
