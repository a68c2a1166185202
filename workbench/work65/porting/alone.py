"""A source linked alone: a script with an area for all its segments, in which each of its imports is an export."""
import re
import subprocess
from dataclasses import dataclass
from typing import Dict, List, Sequence

FIRST = "STARTUP ONCE INIT CODE LOWCODE RODATA DATA BSS ZEROPAGE EXTZP".split()
SEGMENT = re.compile(r"^\s+(\w+):\s+(\d+)", re.M)
ALIGNMENT = re.compile(r'Name:\s+"([^"]+)"\s+Flags:\s+\d+\s+Size:\s+\d+\s+Alignment:\s+(\d+)')
IMPORT, SIZE, NAME = "Index:", re.compile(r"Address size:\s+(0x\w+)"), re.compile(r'Name:\s+"([^"]+)"')


@dataclass(frozen=True)
class Placement:
    """Where the areas begin, and the values of the first imports: short ones, and others with the step between them."""

    zero_page: int
    room: int
    code: int
    short: int
    far: int
    step: int
    is_reversed: bool


# A source is linked by the first two of these that cc65's linker takes: assertions may ask for certain addresses.
PLACEMENTS = (
    Placement(0x02, 0x0200, 0x0400, 0x40, 0x1200, 3, False), Placement(0x21, 0x1357, 0x2468, 0x23, 0x4321, 7, True),
    Placement(0x02, 0x0300, 0x8000, 0x40, 0x1200, 3, False), Placement(0x02, 0x0200, 0xC000, 0x40, 0x1200, 3, False),
    Placement(0x10, 0x0400, 0xE000, 0x33, 0x3456, 5, False), Placement(0x04, 0x0200, 0x0800, 0x40, 0x0030, 1, False),
    Placement(0x02, 0x0200, 0x0400, 0x01, 0x1200, 3, False),
)
ENOUGH = 2
# How many bytes fit into one area at the first placement.
ROOM = 0xFFF0 - 0x0400


@dataclass(frozen=True)
class Needs:
    """The segments with their sizes and the imports of an object of cc65's; which of them lie in the
    zero page, and what the segments have to be aligned to."""

    segments: Dict[str, int]
    alignments: Dict[str, int]
    short_segments: "frozenset[str]"
    imports: Sequence[str]
    short_imports: "frozenset[str]"


def needs_of(object_file: str) -> Needs:
    """Returns what an object of cc65's needs of a script."""
    words = ["od65", "--dump-imports", "--dump-segments", "--dump-segsize", object_file]
    parts = subprocess.run(words, capture_output=True, text=True, encoding="latin-1", stdin=subprocess.DEVNULL).stdout
    segments, _, rest = parts.partition("  Imports:")
    imports, _, sizes = rest.partition("  Segment sizes:")
    imported, short = _named(imports)
    found = dict.fromkeys(FIRST, 0)
    found.update({name: int(size) for name, size in SEGMENT.findall(sizes) if name != "NULL"})
    alignments = {it[1]: int(it[2]) for it in ALIGNMENT.finditer(segments)}
    return Needs(found, alignments, _named(segments)[1] | {"ZEROPAGE", "EXTZP"}, imported, short)


def _named(text: str) -> "tuple[List[str], frozenset[str]]":
    """Returns the names in a dump, and those whose addresses have one byte."""
    names, short = [], set()
    for part in text.split(IMPORT)[1:]:
        name, size = NAME.search(part), SIZE.search(part)
        if name is not None:
            names.append(name[1])
            if size is not None and int(size[1], 16) == 1:
                short.add(name[1])
    return sorted(set(names)), frozenset(short)


def script_of(needs: Needs, at: Placement) -> str:
    """Returns a script that links an object alone. Segments that don't fit together have an area each."""
    is_large = sum(needs.segments.values()) > ROOM
    parts = [f"M{number}" for number in range(len(needs.segments))] if is_large else ["M"]
    end = 0x10000 if is_large else 0xFFF0
    places = [("Z", at.zero_page, 0x100, '""'), ("R", at.room, 0xFFF0, '""')]
    places += [(it, at.code, end, "%O") for it in parts]
    areas = "".join(f"  {name}: start = ${start:04X}, size = ${end - start:04X}, file = {file};\n"
                    for name, start, end, file in places)
    rows = ""
    names = list(needs.segments)
    for number, it in enumerate(reversed(names) if at.is_reversed else names):
        load, kind = ("R", "bss") if it == "BSS" else (parts[number % len(parts)], "rw")
        load, kind = ("Z", "zp") if it in needs.short_segments else (load, kind)
        align = f", align = {needs.alignments[it]}" if needs.alignments.get(it, 1) > 1 else ""
        rows += f"  {it}: load = {load}, type = {kind}{align}, optional = yes;\n"
    symbols = ""
    for number, name in enumerate(needs.imports):
        value = at.short + number % (0x100 - at.short) if name in needs.short_imports else at.far + number * at.step
        symbols += f"  {name}: type = export, value = ${value:04X};\n"
    return f"MEMORY {{\n{areas}}}\nSEGMENTS {{\n{rows}}}\n" + (f"SYMBOLS {{\n{symbols}}}\n" if symbols else "")
