"""The script of bin65 for the parts of a config's areas."""
from typing import AbstractSet, Dict, List, Mapping, NamedTuple, Optional, Sequence, Tuple

from work65.linking.config import ATARI, Row
from work65.linking.layout import Part

OUTPUT = "image"
# The area of segments that the config doesn't have, which must be empty.
NOWHERE = "nowhere__0"
Places = Mapping[str, Tuple[Row, Part]]


class Needs(NamedTuple):
    """What a script has besides areas: the segments in their order, the names that rows have to
    define although they don't in the config, and weak symbols."""

    order: Sequence[str]
    defined: AbstractSet[str]
    weak: Mapping[str, int]


def files_of(parts: Sequence[Part], output: str, formats: Mapping[str, str]) -> Dict[str, str]:
    """Returns the file that bin65 writes for each part that has bytes: one for each file of the
    config, and one for each part of a container."""
    names = list(dict.fromkeys(it.file for it in parts if it.file))
    found = {}
    for at, part in enumerate(parts):
        if part.file:
            plain = OUTPUT if part.file == output else f"image{names.index(part.file)}"
            found[part.name] = f"{plain}.{at}" if formats.get(part.file) == ATARI else plain
    return found


def script_of(parts: Sequence[Part], files: Mapping[str, str], needs: Needs) -> str:
    """Returns the script."""
    places: Dict[str, Dict[str, Tuple[Row, Part]]] = {}
    for part in parts:
        for row in part.rows:
            places.setdefault(row.name, {})[part.area] = (row, part)
    areas = [_area(it, files.get(it.name, "")) for it in parts]
    areas.append(f'{NOWHERE}: start = 0, size = 0, file = ""')
    rows = [
        _row(it, places[it], needs) if it in places else f"{it}: load = {NOWHERE}, type = bss"
        for it in needs.order
    ]
    symbols = [f"{name}: type = weak, value = ${it:X}" for name, it in needs.weak.items()]
    return "".join(map(_block, ("MEMORY", "SEGMENTS", "SYMBOLS"), (areas, rows, symbols)))


def _block(word: str, entries: List[str]) -> str:
    """Returns a block."""
    return "\n".join([f"{word} {{", *(f"    {it};" for it in entries), "}", ""])


def _area(part: Part, file: str) -> str:
    """Returns an area."""
    shown = "%O" if file == OUTPUT else f'"{file}"'
    fill = f"fillval = ${part.fill:X}{', fill = yes' * part.is_filled}, define = yes"
    return f"{part.name}: start = {part.start}, size = {part.size}, file = {shown}, {fill}"


def _row(name: str, places: Places, needs: Needs) -> str:
    """Returns a row with the parts in which it loads and runs. A row without bytes may have two
    areas in cc65: then it has another type, as no part is written."""
    row = next(iter(places.values()))[0]
    (row, run), (_, load) = places[row.run], places[row.load]
    kind = row.kind.lower() if not row.is_written and row.load == row.run else "rw"
    numbers: Sequence[Tuple[str, Optional[int]]] = (
        ("align", row.align), ("align_load", row.align_load if load is not run else None),
        ("start", row.start), ("offset", row.offset), ("fillval", row.fill),
    )  # fmt: skip
    words = [f"load = {load.name}", f"run = {run.name}", f"type = {kind}", "optional = yes"]
    words += [f"{key} = ${number:X}" for key, number in numbers if number is not None]
    if row.is_defined or needs.defined & {f"__{name}_{it}__" for it in ("RUN", "LOAD", "SIZE")}:
        words.append("define = yes")
    return f"{name}: {', '.join(words)}"
