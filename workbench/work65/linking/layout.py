"""Places the segments of a config as cc65's linker does. bin65 writes an area's bytes as they lie
in memory, while cc65's linker leaves out rows without bytes: so an area becomes several, its parts,
each of which begins where the one before ends."""
from typing import Dict, Iterator, List, Mapping, NamedTuple, Sequence, Tuple

from work65.linking.config import Area, Config, Row
from work65.linking.linear import Linear, name
from work65.linking.names import Names
from work65.problem import Problem


class Part(NamedTuple):
    """A part of an area: the file that has its bytes ("" for none), its start and size, the byte of
    gaps, its rows (none if it's only filled), and the number of its bytes in the file."""

    name: str
    area: str
    file: str
    start: Linear
    size: Linear
    is_filled: bool
    fill: int
    rows: Tuple[Row, ...]
    length: Linear

    def symbol(self, kind: str) -> Linear:
        """Returns the name of the part's START, SIZE or LAST."""
        return name(f"__{self.name}_{kind}__")


class Layout(NamedTuple):
    """The parts of all areas in order, and the names that areas define, by bin65's names."""

    parts: List[Part]
    defined: Dict[str, Linear]


def laid_out(config: Config, sizes: Mapping[str, int], names: Names) -> Layout:
    """Returns the parts of a config's areas. `sizes` has the segments that modules have; other rows
    take no part."""
    rows = [it for it in config.rows if it.name in sizes]
    areas = {it.name: it for it in config.areas}
    for it in rows:
        if it.load not in areas or it.run not in areas:
            raise Problem(f"{names.config}:{it.line}: {it.name} is in an area that isn't there")
        if areas[it.run].is_fixed and it.kind != "RO":
            raise Problem(f"{names.config}:{it.line}: {it.name} is writable, but not {it.run}")
    found = Layout([], {})
    for area in config.areas:
        length = sum((it.length for it in found.parts if it.file == area.file), Linear())
        builder = _AreaParts(area, areas, sizes, names)
        parts = builder.place([it for it in rows if area.name in (it.load, it.run)])
        if area.is_defined:
            found.defined.update(builder.defined(length))
        names.placed.update(found.defined)
        names.placed.update(_row_names(parts, area.name))
        found.parts.extend(parts)
    return found


def _row_names(parts: Sequence[Part], area: str) -> Iterator[Tuple[str, Linear]]:
    """Yields the names that rows define once they are placed in an area."""
    for it in (row for part in parts for row in part.rows if row.is_defined):
        kinds = ("RUN", "SIZE") * (it.run == area) + ("LOAD",) * (it.load == area)
        yield from ((f"__{it.name}_{kind}__", name(f"__{it.name}_{kind}__")) for kind in kinds)


class _AreaParts:
    """Builds the parts of one area."""

    def __init__(
        self, area: Area, areas: Mapping[str, Area], sizes: Mapping[str, int], names: Names
    ) -> None:
        self.area, self.areas, self.sizes = area, areas, sizes
        self.found: List[Part] = []
        self.start = names.sum(area.start, area.line)
        if area.is_defined:
            names.placed[f"__{area.name}_START__"] = name(f"__{area.name}__1_START__")
        self.size = names.sum(area.size, area.line)
        self.last = Linear()

    def place(self, rows: Sequence[Row]) -> List[Part]:
        """Returns the parts for rows in their order. Consecutive rows that the file has, or hasn't,
        share a part."""
        waiting: List[Row] = []
        for row in rows:
            if waiting and (self.is_moved(row) or not self.joins(waiting[-1], row)):
                self.add(waiting)
                waiting = []
            waiting.append(self.moved(row) if self.is_moved(row) else row)
        if waiting or not self.found:
            self.add(waiting)
        if self.area.is_filled and self.area.file:
            self.fill_up()
        return self.found

    def is_moved(self, row: Row) -> bool:
        """Returns whether a row has an offset, which counts from the start of a part before."""
        return bool(self.found) and row.offset is not None and row.run == self.area.name

    def joins(self, before: Row, row: Row) -> bool:
        """Returns whether a row shares the part of the row before."""
        if not self.area.file:
            return True
        is_alone = self.is_alone(before) or self.is_alone(row)
        is_like = self.area.is_filled or self.is_written(before) == self.is_written(row)
        return is_like and not is_alone

    def is_written(self, row: Row) -> bool:
        """Returns whether a row's bytes are in the area's file."""
        return row.is_written and row.load == self.area.name

    def fill_of(self, row: Row) -> int:
        """Returns the byte that fills the place of a row."""
        return self.areas[row.load].fill if row.fill is None else row.fill

    def is_alone(self, row: Row) -> bool:
        """Returns whether the place of a row without bytes is filled by itself: with another byte
        than gaps, or as bin65 would write the row, which can't be unwritten in two areas."""
        is_other = self.fill_of(row) != self.area.fill
        is_in_two = not row.is_written and row.load != row.run
        return self.area.is_filled and not self.is_written(row) and (is_other or is_in_two)

    def end(self) -> Linear:
        """Returns the address after the area."""
        return self.found[0].symbol("START") + self.found[0].symbol("SIZE")

    def new(self, file: str, start: Linear, size: Linear, rows: Sequence[Row]) -> Part:
        """Adds a part, without bytes in the file so far."""
        label, fill = f"{self.area.name}__{len(self.found) + 1}", self.area.fill
        part = Part(label, self.area.name, file, start, size, False, fill, tuple(rows), Linear())
        self.found.append(part)
        return part

    def add(self, rows: Sequence[Row]) -> None:
        """Adds a part for rows, and after it the bytes that the file has besides."""
        is_alone = bool(rows) and self.is_alone(rows[0])
        has_file = bool(rows) and (self.area.is_filled or self.is_written(rows[0]))
        start, size = (self.last, self.end() - self.last) if self.found else (self.start, self.size)
        part = self.new(self.area.file if has_file and not is_alone else "", start, size, rows)
        self.last = part.symbol("LAST")
        if is_alone and self.area.file:
            taken = name(f"__{rows[0].name}_SIZE__")
            start = part.symbol("START")
            self.fill(start, self.last - start - taken, self.area.fill)
            self.fill(self.last - taken, taken, self.fill_of(rows[0]))
        elif part.file:
            self.fill_after(part)

    def fill_after(self, part: Part) -> None:
        """Adds the bytes between the last byte that bin65 writes and the end of the rows."""
        written = [it for it in part.rows if self.is_written(it) and self.sizes[it.name]]
        end = part.symbol("START")
        if written:
            end = name(f"__{written[-1].name}_LOAD__") + name(f"__{written[-1].name}_SIZE__")
        self.found[-1] = part._replace(length=end - part.symbol("START"))
        if not written or written[-1] is not part.rows[-1]:
            self.fill(end, self.last - end, self.area.fill)

    def fill(self, start: Linear, size: Linear, byte: int) -> None:
        """Adds bytes to the file, which fill memory from an address on."""
        part = self.new(self.area.file, start, size, ())
        self.found[-1] = part._replace(is_filled=True, fill=byte, length=size)

    def moved(self, row: Row) -> Row:
        """Begins at the offset of a row, with the bytes before it in the file."""
        start = self.found[0].symbol("START") + (row.offset or 0)
        if self.area.file and (self.area.is_filled or self.is_written(row)):
            self.fill(self.last, start - self.last, self.area.fill)
        self.last = start
        return row._replace(offset=None)

    def fill_up(self) -> None:
        """Fills the file up to the end of the area."""
        first = self.found[0]
        if first.file and not any(it.rows for it in self.found[1:]):
            self.found = [first._replace(is_filled=True, length=first.symbol("SIZE"))]
        else:
            self.fill(self.last, self.end() - self.last, self.area.fill)

    def defined(self, length: Linear) -> Dict[str, Linear]:
        """Returns the names that the area defines. `length` is that of the file before it."""
        first, prefix = self.found[0], f"__{self.area.name}_"
        return {
            f"{prefix}START__": first.symbol("START"), f"{prefix}SIZE__": first.symbol("SIZE"),
            f"{prefix}LAST__": self.last, f"{prefix}FILEOFFS__": length,
        }  # fmt: skip
