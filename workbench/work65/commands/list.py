"""work65 list: a listing of sources with addresses as linked and bytes of the image."""
import argparse
import json
from contextlib import nullcontext
from typing import Dict, Iterator, List, Optional

from work65.inspecting.command import add_arguments as add_shared_arguments, bad_input, is_of_cc65
from work65.inspecting.cycles import cycles_of, sums_of
from work65.inspecting.from_build import ModuleReader
from work65.inspecting.from_debug import linked_program_of
from work65.inspecting.linked import Label, Line, LinkedProgram, shown
from work65.instrumenting.build import Build, build, wanted_of
from work65.instrumenting.copies import Constants
from work65.instrumenting.located import FileReading, LocatedLine
from work65.instrumenting.resolve import Resolver
from work65.output import words, write
from work65.program import Program
from work65.signals import folder_for_a_while

HELP = "write a listing: linked addresses, bytes of the image, line numbers and lines"
WIDTH = 8


def add_arguments(parser: argparse.ArgumentParser) -> None:
    """Adds the arguments of this subcommand."""
    add_shared_arguments(parser)
    parser.add_argument("-o", dest="output", metavar="FILE", help="the file for the listing (default: standard output)")
    parser.add_argument("--bytes", type=int, default=24, metavar="N", help="show at most N bytes of a line, 0 for all (default: 24)")
    parser.add_argument("--cycles", action="store_true", help="show the cycles of each instruction and the sums of each .proc")


class Timing:
    """The cycles of a module's located lines, and below the line of each .proc those of its ways."""

    def __init__(self, reader: ModuleReader) -> None:
        located = reader.module.lines
        self.cycles = {id(it): cycles_of(line) for it, line in zip(located, reader.lines)}
        self.below: Dict[int, str] = {}
        for scope in reader.module.scopes:
            label = reader.labels.get(scope.label) if scope.label is not None else None
            said = sum_of(label) if label is not None else ""
            if said:
                self.below[id(located[scope.first])] = said


def sum_of(label: Label) -> str:
    """Returns the line with the cycles of a .proc, empty if they aren't known."""
    sums = sums_of(label.body)
    if sums is None:
        return ""
    return f"; {label.name}: {f'{sums[0]} to {sums[1]}' if sums[0] < sums[1] else sums[0]} cycles"


class Rows:
    """The lines of a listing, with at most `limit` bytes of each line, and a column of cycles."""

    def __init__(self, limit: int, has_cycles: bool) -> None:
        self.limit, self.has_cycles = limit, has_cycles
        self.lines: List[str] = []
        self.shown = ""

    def name(self, name: str) -> None:
        """Adds the name of a file before its lines."""
        if self.shown != name:
            self.shown = name
            self.lines.append(f"== {words(name)}")

    def row(self, address: int, data: bytes, number: str, text: str, cycles: str) -> None:
        """Adds a line with its address and bytes."""
        shown = data[: self.limit] if self.limit > 0 else data
        parts = [shown[at : at + WIDTH].hex(" ").upper() for at in range(0, len(shown), WIDTH)] or [""]
        self.line(f"{address:04X}", parts[0], number, text, cycles)
        for count, part in enumerate(parts[1:], 1):
            self.line(f"{address + count * WIDTH:04X}", part, "", "")
        if len(shown) < len(data):
            self.line("", f"and {len(data) - len(shown)} more", "", "")

    def line(self, address: str, data: str, number: str, text: str, cycles: str = "") -> None:
        """Adds a line to the listing."""
        column = f"{cycles:<4}" if self.has_cycles else ""
        self.lines.append(f"{address:<6}{data:<23} {column}{number:>7}  {text}".rstrip())


class ProgramListing(Rows):
    """The listing of a linked program: the lines that emit something or have a label."""

    def __init__(self, program: LinkedProgram, limit: int, has_cycles: bool) -> None:
        super().__init__(limit, has_cycles)
        said = {label.body[0]: sum_of(label) for label in program.labels if label.body}
        for line in program.lines:
            self.name(line.file)
            number = "+" * line.depth + str(line.number)
            self.row(line.address, line.data, number, line.text, cycles_of(line))
            if has_cycles and said.get(line):
                self.line("", "", "", said[line])


class Listing(Rows):
    """The listing of one module."""

    def __init__(self, resolver: Resolver, limit: int, timing: Optional[Timing]) -> None:
        super().__init__(limit, timing is not None)
        self.resolver, self.timing = resolver, timing

    def file(self, reading: FileReading) -> None:
        """Adds all lines of a file, each followed by the lines of its call, repeat or included file."""
        self.name(reading.source.name)
        for number in range(1, len(reading.source.lines) + 1):
            self.name(reading.source.name)
            below = reading.below.get(number, [])
            located = reading.lines.get(number)
            if located is not None:
                self.located(located, "")
            else:
                first = next((it for it in below if isinstance(it, LocatedLine)), None)
                address = "" if first is None else self.address(first)
                self.line(address, "", str(number), reading.source.line(number).text)
            for it in below:
                if isinstance(it, LocatedLine):
                    self.located(it, "+" * it.depth)
                else:
                    self.file(it)

    def address(self, line: LocatedLine) -> str:
        """Returns the address of a line."""
        return f"{self.resolver.address(line.place):04X}"

    def located(self, line: LocatedLine, mark: str) -> None:
        """Adds a located line."""
        address, data = self.resolver.address(line.place), self.resolver.bytes_at(line.place, line.size)
        cycles = self.timing.cycles[id(line)] if self.timing else ""
        self.row(address, data, f"{mark}{line.line}", line.text, cycles)
        if self.timing and id(line) in self.timing.below:
            self.line("", "", "", self.timing.below[id(line)])


def listing(made: Build, limit: int, has_cycles: bool) -> Iterator[str]:
    """Yields the lines of the listing."""
    for unit in made.units:
        if unit.located is not None:
            timing = Timing(ModuleReader(made, unit, unit.located)) if has_cycles else None
            it = Listing(Resolver(made, unit), limit, timing)
            it.file(unit.located.reading)
            yield from it.lines


def values_of_build(made: Build) -> Dict[str, List[Dict[str, object]]]:
    """Returns the located lines and the procedures of a build as plain values."""
    readers = [ModuleReader(made, unit, unit.located) for unit in made.units if unit.located]
    lines = [line for reader in readers for line in reader.lines]
    return values(lines, [label for reader in readers for label in reader.labels.values()])


def values(lines: List[Line], labels: List[Label]) -> Dict[str, List[Dict[str, object]]]:
    """Returns lines and procedures as plain values."""
    found: Dict[str, List[Dict[str, object]]] = {"lines": [], "procedures": []}
    for line in lines:
        where = {"file": line.file, "line": line.number, "depth": line.depth, "module": line.module}
        what = {"segment": line.segment, "address": line.address, "size": line.size}
        said = {"bytes": line.data.hex(), "cycles": cycles_of(line), "text": shown(line.text)}
        found["lines"].append({**where, **what, **said})
    for label in (label for label in labels if label.body):
        sums = sums_of(label.body)
        named = {"name": label.name, "module": label.module, "address": label.address}
        least, greatest = sums or (None, None)
        found["procedures"].append({**named, "least": least, "greatest": greatest})
    return found


def data_of_cc65(arguments: argparse.Namespace) -> bytes:
    """Returns the output for a build of cc65."""
    program = linked_program_of(arguments.dbgfile, arguments.image, arguments.script)
    if arguments.json:
        return json_of(values(program.lines, program.labels))
    listed = ProgramListing(program, arguments.bytes, arguments.cycles)
    return "".join(f"{it}\n" for it in listed.lines).encode("latin-1")


def data_of_build(arguments: argparse.Namespace) -> bytes:
    """Returns the output for a build of bin65."""
    with folder_for_a_while() as folder:
        program = Program.find(arguments.bin65)
        made = build(program, wanted_of(arguments), folder, Constants.NONE)
        if arguments.json:
            return json_of(values_of_build(made))
        lines = listing(made, arguments.bytes, arguments.cycles)
        return "".join(f"{it}\n" for it in lines).encode("latin-1")


def json_of(found: Dict[str, List[Dict[str, object]]]) -> bytes:
    """Returns values as JSON."""
    return (json.dumps(found, indent=2) + "\n").encode()


def run(arguments: argparse.Namespace) -> int:
    """Runs the subcommand. Returns the exit status."""
    is_new = arguments.cycles or arguments.json or arguments.dbgfile is not None
    is_other = is_of_cc65(arguments)
    with bad_input() if is_new else nullcontext():
        data = data_of_cc65(arguments) if is_other else data_of_build(arguments)
    write(arguments.output, data)
    return 0
