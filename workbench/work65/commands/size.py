"""work65 size: bytes used and free."""
import argparse
import json
import os
import sys
from typing import Iterator, List, Sequence

from work65.formats.maps import read_map
from work65.formats.picture import svg
from work65.frontend.files import read_bytes, read_text
from work65.frontend.link_script import read_script
from work65.inspecting.command import bad_input, write_json, write_lines
from work65.inspecting.size_changes import KINDS, Values, as_values, changes, line_of_changes, read_sizes
from work65.instrumenting.build import add_arguments as add_build_arguments, build, wanted_of
from work65.instrumenting.copies import Constants
from work65.instrumenting.layout import layout_of
from work65.instrumenting.sizes import AreaSize, Sizes, sizes_of
from work65.output import write
from work65.program import Program
from work65.signals import folder_for_a_while

HELP = "show used and free bytes by area, segment, module and procedure, from a map or from sources"
BAR = 30


def add_arguments(parser: argparse.ArgumentParser) -> None:
    """Adds the arguments of this subcommand."""
    add_build_arguments(parser)
    parser.add_argument("--json", action="store_true", help="write JSON")
    add = parser.add_mutually_exclusive_group().add_argument
    add("--svg", metavar="FILE", help="draw memory as a picture into FILE, instead of the text")
    add("--diff", metavar="OLD", help="show the bytes won and lost since OLD, an earlier output of --json")


def is_map(name: str) -> bool:
    """Returns whether a file is a map."""
    return read_bytes(name, 8) == b"MODULES\n"


def sizes_of_line(arguments: argparse.Namespace) -> Sizes:
    """Returns the sizes of the map or of the sources of a command line."""
    names: List[str] = arguments.sources
    if len(names) == 1 and is_map(names[0]):
        script = read_script(read_text(arguments.script), arguments.script)
        return sizes_of(layout_of(script, read_map(read_bytes(names[0]), names[0]), arguments.script), [])
    with folder_for_a_while() as folder:
        built = build(Program.find(arguments.bin65), wanted_of(arguments), folder, Constants.NONE)
    return sizes_of(built.layout, built.units)


def bar(area: AreaSize) -> str:
    """Returns a bar that shows how full an area is."""
    full = round(BAR * area.used / area.size) if area.size else BAR
    return "#" * max(full, int(area.used > 0)) + "." * (BAR - max(full, int(area.used > 0)))


def table(heads: Sequence[str], rows: Sequence[Sequence[str]]) -> Iterator[str]:
    """Yields the lines of a table, the first column aligned left, the others right."""
    widths = [max(len(it) for it in column) for column in zip(heads, *rows)]
    for row in (heads, *rows):
        first, rest = row[0].ljust(widths[0]), (it.rjust(width) for it, width in zip(row[1:], widths[1:]))
        yield "  ".join([first, *rest]).rstrip()


def text(sizes: Sizes, has_bars: bool) -> Iterator[str]:
    """Yields the sizes as tables."""
    heads = ["AREA", "start", "size", "used", "free"] + (["full"] if has_bars else [])
    areas = []
    for area in sizes.areas:
        areas.append([area.name, f"{area.start:04X}", str(area.size), str(area.used), str(area.free)] + ([bar(area)] if has_bars else []))
    yield from table(heads, areas)
    yield ""
    segments = [[it.name, f"{it.run:04X}", f"{it.load:04X}", str(it.size), it.area] for it in sizes.segments if it.size]
    yield from table(["SEGMENT", "run", "load", "size", "area"], segments)
    yield ""
    names = [it.name for it in sizes.segments if it.size]
    modules = [[it.name, str(it.size), *(str(it.segments.get(name, 0)) for name in names)] for it in sizes.modules]
    yield from table(["MODULE", "size", *names], modules)
    if sizes.procedures:
        yield ""
        yield from table(["PROCEDURE", "size", "module"], [[it.name, str(it.size), it.module] for it in sizes.procedures])


def changed(before: Values, now: Values) -> Iterator[str]:
    """Yields what changed as tables, and last as one line."""
    for kind in KINDS:
        rows = [[it.name, str(it.before), str(it.now), f"{it.change:+}"] for it in changes(kind, before, now)]
        if rows:
            yield from (*table([kind[:-1].upper(), "before", "now", "change"], rows), "")
    yield line_of_changes(before, now)


def write_difference(arguments: argparse.Namespace) -> None:
    """Writes what changed since the sizes of --diff."""
    with bad_input():
        before, now = read_sizes(arguments.diff), sizes_of_line(arguments).as_values()
    if arguments.json:
        write_json(as_values(before, now))
    else:
        write_lines(changed(before, now))


def run(arguments: argparse.Namespace) -> int:
    """Runs the subcommand. Returns the exit status."""
    if arguments.diff is not None:
        write_difference(arguments)
        return 0
    sizes = sizes_of_line(arguments)
    if arguments.svg is not None:
        write(arguments.svg, svg(sizes).encode())
    if arguments.json:
        write(None, (json.dumps(sizes.as_values(), indent=2) + "\n").encode())
    elif arguments.svg is None:
        write(None, os.fsencode("".join(f"{it}\n" for it in text(sizes, sys.stdout.isatty()))))
    return 0
