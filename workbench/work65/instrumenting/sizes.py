"""Sizes in a linked program: by area, segment, module and procedure."""
from dataclasses import asdict, dataclass, field
from typing import Dict, List, Sequence

from work65.formats.maps import PlacedSegment
from work65.instrumenting.build import Unit
from work65.instrumenting.layout import Layout, PlacedArea
from work65.instrumenting.names import scope_name


@dataclass(frozen=True)
class SegmentSize:
    """A segment: its run and load addresses, its size, and its areas."""

    name: str
    run: int
    load: int
    size: int
    area: str
    load_area: str


@dataclass(frozen=True)
class AreaSize:
    """An area: its addresses, its used and free bytes, and its segments."""

    name: str
    start: int
    size: int
    used: int
    free: int
    segments: List[SegmentSize]


@dataclass(frozen=True)
class ModuleSize:
    """A module: its size, the size of each of its sections, and its source, empty if that isn't known."""

    name: str
    size: int
    segments: Dict[str, int]
    source: str = ""


@dataclass(frozen=True)
class ProcedureSize:
    """A procedure: its full name, its module, and its size with all nested scopes, also by segment."""

    name: str
    module: str
    size: int
    segments: Dict[str, int] = field(default_factory=dict)


@dataclass
class Sizes:
    """All sizes."""

    areas: List[AreaSize]
    segments: List[SegmentSize]
    modules: List[ModuleSize]
    procedures: List[ProcedureSize] = field(default_factory=list)

    def as_values(self) -> Dict[str, object]:
        """Returns the sizes as plain values."""
        return asdict(self)


def segment_of(layout: Layout, placed: PlacedSegment) -> SegmentSize:
    """Returns the size of a segment."""
    entry = layout.script.segment(placed.name)
    return SegmentSize(placed.name, placed.run, placed.load, placed.size, entry.run if entry else "", entry.load if entry else "")


def area_of(layout: Layout, room: PlacedArea) -> AreaSize:
    """Returns the size of an area."""
    segments = [segment_of(layout, it) for it in room.rows]
    return AreaSize(room.area.name, room.start, room.size, layout.used(room), layout.free(room), segments)


def procedures_of(unit: Unit) -> List[ProcedureSize]:
    """Returns the procedures of a module."""
    module = unit.located
    if module is None:
        return []
    found = []
    for number, scope in enumerate(module.scopes):
        if scope.is_proc:
            segments: Dict[str, int] = {}
            for it in module.lines[scope.first : scope.last]:
                segments[it.place.section] = segments.get(it.place.section, 0) + it.size
            found.append(ProcedureSize(scope_name(module, number)[:-2], unit.module, sum(segments.values()), segments))
    return found


def sizes_of(layout: Layout, units: Sequence[Unit]) -> Sizes:
    """Returns the sizes of a link, procedures by size."""
    areas = [area_of(layout, it) for it in layout.rooms.values()]
    segments = [segment_of(layout, it) for it in layout.map.rows]
    sources = {unit.module: unit.source for unit in units}
    modules = []
    for module in layout.map.modules:
        parts = {it.segment: it.size for it in module.parts}
        modules.append(ModuleSize(module.name, sum(parts.values()), parts, sources.get(module.name, "")))
    procedures = [it for unit in units for it in procedures_of(unit)]
    return Sizes(areas, segments, modules, sorted(procedures, key=lambda it: -it.size))
