"""The map of ld65 -m (docs/FORMATS.md)."""
import os
from dataclasses import dataclass, field
from typing import Dict, List, NamedTuple

from work65.problem import Problem


class Part(NamedTuple):
    """A section of a module: its segment, its offset in it, and its size."""

    segment: str
    offset: int
    size: int


class PlacedSegment(NamedTuple):
    """A segment: its run and load addresses, and its size."""

    name: str
    run: int
    load: int
    size: int


@dataclass
class Module:
    """A module and its sections."""

    name: str
    parts: List[Part] = field(default_factory=list)


class Map(NamedTuple):
    """A map."""

    modules: List[Module]
    rows: List[PlacedSegment]
    symbols: Dict[str, int]

    def row(self, name: str) -> PlacedSegment:
        """Returns the row of a segment."""
        return next(it for it in self.rows if it.name == name)


def read_map(data: bytes, name: str) -> Map:
    """Reads a map. Raises a Problem if the file isn't one."""
    lines = os.fsdecode(data).split("\n")
    try:
        first, second = lines.index("SEGMENTS"), lines.index("SYMBOLS")
        if lines[0] != "MODULES" or second < first:
            raise ValueError
        found = Map([], [], {})
        for line in lines[1:first]:
            if line.startswith("  "):
                segment, offset, size = line.split()
                found.modules[-1].parts.append(Part(segment, int(offset, 16), int(size, 16)))
            else:
                found.modules.append(Module(line))
        for line in lines[first + 1 : second]:
            segment, run, load, size = line.split()
            found.rows.append(PlacedSegment(segment, int(run, 16), int(load, 16), int(size, 16)))
        for line in lines[second + 1 : -1]:
            symbol, value = line.split()
            found.symbols[symbol] = int(value, 16)
    except (ValueError, IndexError):
        raise Problem(f"{name}: not a map written by ld65 -m") from None
    return found
