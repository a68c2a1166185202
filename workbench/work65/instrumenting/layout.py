"""Locates the segments of a linked program in memory areas and files, from its script and its map."""
from dataclasses import dataclass, field
from typing import Dict, List, Optional, Sequence

from work65.formats.maps import Map, PlacedSegment
from work65.frontend.link_script import Area, Script, Segment
from work65.frontend.script_sums import UnknownName, evaluated
from work65.frontend.scripts import Word
from work65.problem import Problem

UNWRITTEN = ("bss", "zp")


@dataclass
class PlacedArea:
    """A memory area after the link: its addresses, the segments that run or load in it, and the offset of its bytes in its file."""

    area: Area
    start: int
    size: int
    rows: List[PlacedSegment] = field(default_factory=list)
    offset: int = 0

    def address(self, placed: PlacedSegment, segment: Segment) -> int:
        """Returns the address of a segment in this area."""
        return placed.run if segment.run == self.area.name else placed.load


@dataclass
class Layout:
    """All areas and segments."""

    script: Script
    map: Map
    rooms: Dict[str, PlacedArea] = field(default_factory=dict)

    def place_in_file(self, segment: str) -> Optional[int]:
        """Returns the offset of a segment in its file, None if it isn't written to one."""
        row = self.script.segment(segment)
        if row is None or row.kind in UNWRITTEN or not self.rooms[row.load].area.file:
            return None
        room = self.rooms[row.load]
        return room.offset + self.map.row(segment).load - room.start

    def runs_where_it_lies(self, segment: str) -> bool:
        """Returns whether a segment runs where it is loaded."""
        row = self.map.row(segment)
        return row.run == row.load

    def file_of(self, segment: str) -> str:
        """Returns the file of a segment's load area, as the script names it."""
        row = self.script.segment(segment)
        return self.rooms[row.load].area.file if row else ""

    def used(self, room: PlacedArea) -> int:
        """Returns the number of bytes in an area that segments use."""
        return sum(it.size for it in room.rows)

    def free(self, room: PlacedArea) -> int:
        """Returns the number of bytes in an area that no segment uses."""
        return room.size - self.used(room)


class AreaPlacer:
    """Computes the areas in the order of MEMORY, as the linker does."""

    def __init__(self, script: Script, links: Map, name: str) -> None:
        self.layout = Layout(script, links)
        self.name = name
        self.names: Dict[str, int] = dict(script.exports)
        for it in links.rows:
            self.names.update({f"__{it.name}_LOAD__": it.load, f"__{it.name}_RUN__": it.run, f"__{it.name}_SIZE__": it.size})

    def sum(self, value: Sequence[Word]) -> int:
        """Returns the value of a sum."""
        try:
            return evaluated(value, self.names)
        except UnknownName as name:
            raise Problem(f"{self.name}: undefined name: {str(name)[:80]}") from None
        except ValueError:
            raise Problem(f"{self.name} is no valid script: run bin65 ld65 for the error") from None

    def build(self) -> Layout:
        """Returns the layout."""
        script = self.layout.script
        ends: Dict[str, int] = {}
        for area in script.areas:
            room = PlacedArea(area, self.sum(area.start), self.sum(area.size))
            self.layout.rooms[area.name] = room
            self.fill(room)
            room.offset = ends.get(area.file, 0)
            ends[area.file] = room.offset + self.length(room)
        return self.layout

    def fill(self, room: PlacedArea) -> None:
        """Adds the segments of an area, and the symbols that it defines."""
        name, last = room.area.name, room.start
        for row in self.layout.script.segments:
            if name in (row.load, row.run):
                placed = next((it for it in self.layout.map.rows if it.name == row.name), None)
                if placed is None:
                    raise Problem(f"{self.name}: the map has no segment {row.name}: was it made with another script?")
                room.rows.append(placed)
                last = room.address(placed, row) + placed.size
        self.names.update({f"__{name}_START__": room.start, f"__{name}_SIZE__": room.size, f"__{name}_LAST__": last})

    def length(self, room: PlacedArea) -> int:
        """Returns the number of bytes that an area writes to its file."""
        if room.area.is_filled:
            return room.size
        written = {it.name for it in self.layout.script.segments if it.load == room.area.name and it.kind not in UNWRITTEN}
        ends = (it.load + it.size - room.start for it in room.rows if it.size and it.name in written)
        return max(ends, default=0)


def layout_of(script: Script, links: Map, name: str) -> Layout:
    """Returns the layout of a program from its script and its map."""
    return AreaPlacer(script, links, name).build()
