"""Where two links of a program first differ: the area, the segment, the module, the line of the original, and the bytes of both."""
import os
from dataclasses import dataclass
from typing import Dict, Iterator, List, Optional, Tuple

from work65.frontend.link_script import OUTPUT, read_script, with_files
from work65.instrumenting.layout import Layout, layout_of
from work65.porting.leaves import Leaf, of_debug_file, records
from work65.porting.port import Ported
from work65.porting.tools import Linked, other_exports


@dataclass(frozen=True)
class LinkedModule:
    """A module as bin65 linked it: its source in the copy, and which lines put its bytes."""

    source: str
    leaves: List[Leaf]


def differing(cc65: Linked, bin65: Linked) -> Iterator[Tuple[str, int]]:
    """Yields the bytes that differ: the file, and the place in it."""
    for name in sorted({*cc65.files, *bin65.files}):
        a, b = cc65.files.get(name, b""), bin65.files.get(name, b"")
        yield from ((name, at) for at, (x, y) in enumerate(zip(a, b)) if x != y)
        if len(a) != len(b):
            yield name, min(len(a), len(b))


class Finder:
    """Finds the line of a byte."""

    def __init__(self, ported: Ported, script: str, bin65: Linked, modules: Dict[str, LinkedModule]) -> None:
        self.ported, self.bin65, self.modules = ported, bin65, modules
        text, self.names = with_files(script, OUTPUT)
        self.layout: Optional[Layout] = None
        if bin65.map is not None:
            self.layout = layout_of(read_script(text, "the script"), bin65.map, "the script")

    def segment(self, file: str, at: int) -> Optional[Tuple[str, int]]:
        """Returns the segment that has a byte of a file, and where in it."""
        if self.layout is None:
            return None
        for row in self.layout.map.rows:
            begin = self.layout.place_in_file(row.name)
            if begin is not None and begin <= at < begin + row.size and self.names.get(self.layout.file_of(row.name), OUTPUT) == file:
                return row.name, at - begin
        return None

    def module(self, segment: str, at: int) -> Optional[Tuple[str, int]]:
        """Returns the module that has a byte of a segment, and where in its part."""
        for it in self.bin65.map.modules if self.bin65.map is not None else ():
            for part in it.parts:
                if part.segment == segment and part.offset <= at < part.offset + part.size:
                    return os.path.basename(it.name.rpartition("(")[2].rstrip(")")), at - part.offset
        return None

    def leaf(self, file: str, at: int) -> Optional[Tuple[Leaf, int]]:
        """Returns the leaf with a byte of a file, and the offset of the byte in it."""
        found = self.segment(file, at)
        part = None if found is None else self.module(*found)
        module = None if part is None else self.modules.get(part[0])
        if found is None or part is None or module is None:
            return None
        for it in module.leaves:
            if it.segment == found[0] and it.offset <= part[1] < it.offset + it.size:
                return it, part[1] - it.offset
        return None

    def line(self, file: str, at: int) -> str:
        """Returns the line of the original that put a byte of a file."""
        found = self.leaf(file, at)
        lines = [] if found is None else [one for one in map(self.ported.origin, found[0].lines) if one is not None]
        return " in ".join(f"{self.ported.project.texts[one.path].path}:{one.number}" for one in reversed(lines))

    def told(self, file: str, at: int) -> str:
        """Returns the location of a byte of a file, in words, after the line of the original if it is known."""
        found = self.segment(file, at)
        if found is None or self.layout is None:
            return "in no segment"
        row = self.layout.script.segment(found[0])
        said = f"{f'area {row.load}, ' if row is not None else ''}segment {found[0]}"
        part = self.module(*found)
        if part is None:
            return f"{said}, between two modules"
        line, module = self.line(file, at), self.modules.get(part[0])
        return f"{said}, module {part[0] if module is None else module.source}{', ' if line else ''}{line}"


    def told_of_cc65(self, cc65: Linked, file: str, at: int) -> str:
        """Returns the same of a byte that cc65's image alone has."""
        for it in records(cc65.debug, "seg"):
            if self.names.get(it.get("oname", ""), OUTPUT) == file and "ooffs" in it:
                offset = at - int(it["ooffs"])
                if 0 <= offset < int(it["size"], 16):
                    leaves = of_debug_file(cc65.debug, lambda name: name)
                    put = next((one for one in leaves if one.segment == it["name"] and one.offset <= offset < one.offset + one.size), None)
                    line = "" if put is None else f", {put.lines[-1].path}:{put.lines[-1].number}"
                    return f"segment {it['name']}{line}"
        return self.told(file, at)


def difference(cc65: Linked, bin65: Linked, finder: Finder) -> str:
    """Returns what differs first between two links."""
    found = next(differing(cc65, bin65), None)
    if found is None:
        return _unwritten(cc65, bin65)
    name, at = found
    sides = [side.files.get(name, b"") for side in (cc65, bin65)]
    said = " and ".join(f"{it[at]:02X}" if at < len(it) else "no byte" for it in sides)
    file = "the image" if name == OUTPUT else name
    where = finder.told(name, at) if at < len(sides[1]) else finder.told_of_cc65(cc65, name, at)
    sizes = "" if len(sides[0]) == len(sides[1]) else f" of {len(sides[0])} and {len(sides[1])}"
    return f"{file} differs from byte {at}{sizes} on (cc65 and bin65: {said}): {where}"


def _unwritten(cc65: Linked, bin65: Linked) -> str:
    """Returns the difference between two links with the same files: a segment's size, or an export's value."""
    for name in sorted({*cc65.sizes, *bin65.sizes}):
        if cc65.sizes.get(name, 0) != bin65.sizes.get(name, 0):
            return f"segment {name} has {cc65.sizes.get(name, 0)} bytes with cc65, {bin65.sizes.get(name, 0)} with bin65"
    for name in other_exports(cc65, bin65):
        other = bin65.exports.get(name)
        return f"{name} is ${cc65.exports[name]:04X} with cc65, {'no export' if other is None else f'${other:04X}'} with bin65"
    return "nothing differs"
