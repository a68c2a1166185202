"""Compares the files and the addresses of a link by cc65's linker with those of bin65."""
from typing import Mapping, NamedTuple, Optional

from work65.linking.plan import Plan
from work65.linking.run import Linked, number_of
from work65.linking.theirs import WIDTH, Theirs
from work65.translating.cc65_objects import CcObject, Fill, Position, Value

SAME, DIFFERENT, UNKNOWN = "same", "different", "not compared"


class Verdict(NamedTuple):
    """What came of a link's check: one of three words, a text, and the sizes of ld65's files."""

    verdict: str
    text: str
    sizes: Mapping[str, int]


def compared(plan: Plan, theirs: Mapping[str, bytes], ours: Linked) -> Verdict:
    """Compares the files of a link."""
    sizes = {name: len(data) for name, data in theirs.items() if data}
    for name in dict.fromkeys([*ours.files, *theirs]):
        one, other = theirs.get(name, b""), ours.files.get(name, b"")
        if one != other:
            pairs = enumerate(zip(one, other))
            at = next((it for it, (a, b) in pairs if a != b), min(len(one), len(other)))
            where = place_of(plan, name, at, ours)
            if at in (len(one), len(other)):
                what = f"{name}: ld65 has {len(one)} bytes, bin65 {len(other)}"
            else:
                values = f"{one[at]:02X} and {other[at]:02X}"
                what = f"{name} differs from byte {at} on (ld65 and bin65: {values})"
            return Verdict(DIFFERENT, f"{what}: {where}", sizes)
    label = plan.label(sizes)
    if not sizes:
        return Verdict(UNKNOWN, f"{label}: not compared: no file has bytes", sizes)
    total = f"{sum(sizes.values())} bytes{f' in {len(sizes)} files' * (len(sizes) > 1)}"
    return Verdict(SAME, f"{label}: the same image, {total} ({_modules(plan)})", sizes)


def _modules(plan: Plan) -> str:
    """Returns how many modules a link has, and how many of them are from each library."""
    members = plan.selection.members
    count = len(plan.selection.units) - sum(members.values())
    modules = f"{count} module{'s' * (count != 1)}"
    return ", ".join([modules, *(f"{it} of {name}" for name, it in members.items())])


def place_of(plan: Plan, name: str, offset: int, ours: Linked) -> str:
    """Returns where a byte of a file is: area, segment, module and line, as far as is known."""
    if name in plan.config.formats:
        return "in a load file"
    for part in plan.parts:
        length = number_of(part.length, ours.numbers) if part.file == name else 0
        if offset < length:
            address = offset + number_of(part.symbol("START"), ours.numbers)
            names = [it.name for it in part.rows if it.load == part.area]
            for row in (it for it in ours.map.rows if it.name in names):
                if row.load <= address < row.load + row.size:
                    module = _module_at(plan, row.name, address - row.load, ours)
                    return f"area {part.area}, segment {row.name}, {module}"
            return f"area {part.area}, in no segment"
        offset -= length
    return "after the last area"


def _module_at(plan: Plan, segment: str, offset: int, ours: Linked) -> str:
    """Returns the module that has a byte of a segment, and the line."""
    for module in ours.map.modules:
        unit = plan.units.get(module.name)
        for part in module.parts:
            if part.segment == segment and part.offset <= offset < part.offset + part.size:
                if unit is None:
                    return f"table {module.name}"
                position = position_in(unit.object(), segment, offset - part.offset)
                line = f", {position.file}:{position.line}" if position else ""
                return f"module {unit.name}{line}"
    return "in no module"


def position_in(obj: CcObject, segment: str, offset: int) -> Optional[Position]:
    """Returns the source line of a byte of an object, None where the object has none."""
    section = next(it for it in obj.sections if it.name == segment)
    at = 0
    for it in section.fragments():
        at += it.width if isinstance(it, Value) else it.size if isinstance(it, Fill) else len(it)
        if offset < at:
            return obj.position(it.lines) if isinstance(it, Value) else None
    return None


def moved(plan: Plan, theirs: Theirs, ours: Linked) -> str:
    """Returns the first segment or export that has another address in bin65's map, "" if none. Of
    the linker's own names those are looked at that bin65 has, too."""
    rows = {it.name: (it.run, it.size) for it in ours.map.rows}
    for name, place in theirs.segments.items():
        own = rows.get(name)
        if own != place and (place[1] or own is None or own[1]):
            mine = f"{own[1]} at ${own[0]:04X}" if own else "none"
            return (
                f"segment {name} has {place[1]} bytes at ${place[0]:04X} in ld65's map, "
                f"{mine} in bin65's"
            )
    for name, value in theirs.exports.items():
        number = ours.map.symbols.get(name)
        if number is None and name in plan.selection.exporters:
            return f"{name} is ${value:04X} in ld65's map, and isn't in bin65's"
        if number is not None and number & WIDTH != value:
            return f"{name} is ${value:04X} in ld65's map, ${number & WIDTH:04X} in bin65's"
    return ""
