"""Areas that cc65's linker fills up to a row that nobody uses: the script is written so that bin65's file ends there, too."""
from typing import Dict, List, Optional, Tuple

from work65.frontend.edits import edited
from work65.frontend.link_script import OUTPUT, Script, read_script, with_files
from work65.frontend.script_sums import number_of
from work65.frontend.scripts import Entry, entries_in
from work65.instrumenting.layout import UNWRITTEN, Layout, layout_of
from work65.porting.tools import Linked

# The segments that are in each object of cc65's, also without bytes.
ALWAYS = frozenset(("CODE", "RODATA", "DATA"))


def filled(text: str, cc65: Linked, bin65: Linked) -> Optional[Tuple[str, List[str]]]:
    """Returns the text of a script with these areas filled, and the rows up to which they are; None where there is none. The sizes are
    those of this link."""
    if bin65.map is None:
        return None
    script = read_script(with_files(text, OUTPUT)[0], "the script")
    layout = layout_of(script, bin65.map, "the script")
    lengths: Dict[str, int] = {}
    names: List[str] = []
    starts = cc65.starts or _aligned(text, layout)
    for area in script.areas:
        row = None if area.is_filled or not area.file else _unused(script, area.name, bin65, starts)
        end = 0 if row is None else starts[row] - layout.rooms[area.name].start
        if row is not None and 0 < end <= layout.rooms[area.name].size:
            lengths[area.name] = end
            names.append(row)
    return (_written(text, lengths), names) if lengths else None


def _aligned(text: str, layout: Layout) -> Dict[str, int]:
    """Returns where rows without bytes begin that each object of cc65's has, by their alignment."""
    found = {}
    for entry in entries_in(text, "SEGMENTS"):
        align, row = entry.get("ALIGN"), layout.script.segment(entry.name.text)
        if align and row is not None and row.name in ALWAYS:
            room = layout.rooms[row.load]
            step, end = number_of(align[0].text), max((it.load + it.size for it in room.rows if it.size), default=room.start)
            found[row.name] = -(-end // step) * step
    return found


def _unused(script: Script, area: str, bin65: Linked, starts: Dict[str, int]) -> Optional[str]:
    """Returns the last of the rows at the end of an area that nobody uses, and that cc65's linker places all the same."""
    found = None
    for row in reversed([it for it in script.segments if it.load == area and it.kind not in UNWRITTEN]):
        if bin65.sizes.get(row.name):
            return found
        if found is None and row.name in starts:
            found = row.name
    return None


def _written(text: str, lengths: Dict[str, int]) -> str:
    """Returns the script with areas of these lengths, filled."""
    edits: List[Tuple[int, int, str]] = []
    for entry in entries_in(text, "MEMORY"):
        if entry.name.text in lengths:
            edits += _edits(entry, lengths[entry.name.text])
    return edited(text, edits)


def _edits(entry: Entry, length: int) -> List[Tuple[int, int, str]]:
    """Returns the edits of an area: its size, and that it is filled."""
    found = []
    for it in entry.attributes:
        if it.name.upper == "SIZE" and it.value:
            found.append((it.value[0].start, it.value[-1].end, f"${length:04X}, fill = yes"))
        elif it.name.upper == "FILL" and it.value:
            found.append((it.value[0].start, it.value[-1].end, "yes"))
            found[0] = (found[0][0], found[0][1], f"${length:04X}")
    return found
