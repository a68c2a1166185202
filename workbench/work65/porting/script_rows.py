"""Rows of a script that cc65's linker and bin65 place differently: edits that make both images equal, or reports."""
from dataclasses import dataclass, field, replace
from typing import Dict, Iterator, List, Optional, Set, Tuple

from work65.frontend.scripts import Attribute, Block, Entry, Word, entries_of

Edit = Tuple[int, int, str]
Said = Tuple[Word, str]
# The segments that each object of cc65's has.
ALWAYS = frozenset(("CODE", "RODATA", "DATA", "BSS", "ZEROPAGE", "NULL"))
UNWRITTEN = frozenset(("BSS", "ZP"))
ROW_BEFORE = "an unused row before it has an alignment or a start: give this row a start"
NO = frozenset(("NO", "FALSE", "0"))


@dataclass
class Usage:
    """Which segments the sources have: surely with bytes, surely but perhaps without, in lines that a condition may leave out, and
    opened at all; and all words of the tree."""

    sure: Set[str] = field(default_factory=set)
    there: Set[str] = field(default_factory=set)
    perhaps: Set[str] = field(default_factory=set)
    opened: Set[str] = field(default_factory=set)
    words: Set[str] = field(default_factory=set)
    is_known: bool = False

    def is_used(self, name: str) -> Optional[bool]:
        """Returns whether a source has a segment."""
        if not self.is_known or name in self.perhaps and name not in self.there:
            return None
        return name in self.there

    def is_placed(self, name: str) -> bool:
        """Returns whether cc65 places the row of a segment even if it has no bytes: an object has it."""
        return name in ALWAYS or name in self.opened


@dataclass
class Row:
    """A row of SEGMENTS in one area: whether its bytes are written there."""

    entry: Entry
    is_written: bool
    is_run: bool

    @property
    def name(self) -> str:
        """The segment's name."""
        return self.entry.name.text


class Rows:
    """The areas of a script with their rows."""

    def __init__(self, whole: str, blocks: List[Block], usage: Usage) -> None:
        self.whole, self.usage = whole, usage
        self.areas, self.entries = entries_of(blocks, "MEMORY"), entries_of(blocks, "SEGMENTS")
        self.script_words = {word.text for block in blocks for it in block.entries for one in it.attributes for word in one.value}
        self.edits: List[Edit] = []
        self.said: List[Said] = []
        # Offsets that rows got from unused ones: the offset, and the number of its edit.
        self.given: Dict[str, Tuple[int, int]] = {}

    def all(self) -> "Rows":
        """Looks at all areas, where the sources are known."""
        for area in self.areas if self.usage.is_known else ():
            rows = list(self.rows_of(area.name.text))
            if _text(area, "FILE") == '""':
                self.move_placing(area, [replace(it, is_written=True) for it in rows])
            elif rows:
                self.move_placing(area, rows)
                if _text(area, "FILL").upper() in NO | {""}:
                    self.part(area, rows)
                else:
                    self.said += [(it.entry.name, "its room has another fill in cc65: give it the area's fillval")
                                  for it in rows if self.has_other_fill(area, it)]
        return self

    def has_other_fill(self, area: Entry, row: Row) -> bool:
        """Returns whether the room of a row that isn't written in an area has another fill there in cc65."""
        load = _text(row.entry, "LOAD")
        if row.is_written or not row.is_run or self.usage.is_used(row.name) is False:
            return False
        from_area = next((_byte(it) for it in self.areas if it.name.text == load), 0)
        return _byte(row.entry, from_area) != _byte(area)

    def rows_of(self, area: str) -> Iterator[Row]:
        """Yields the rows that load or run in an area, in their order."""
        for it in self.entries:
            load = _text(it, "LOAD")
            run = _text(it, "RUN") or load
            if area in (load, run):
                is_written = load == area and _text(it, "TYPE").upper() not in UNWRITTEN
                yield Row(it, is_written, run == area)

    def move_placing(self, area: Entry, rows: List[Row]) -> None:
        """Moves the `align`, `start` or `offset` of unused rows, which count in cc65, to the next used row."""
        waiting: Dict[str, int] = {}
        is_moved = False
        for at, row in enumerate(rows):
            placing, is_used = _placing(row) if self.usage.is_placed(row.name) else {}, self.usage.is_used(row.name)
            if is_used is None and placing and self.moves_any(area, rows[at + 1 :]):
                self.said.append((row.entry.name, "whether it is used can't be determined: cc65 places it in any case"))
            elif is_used is False and placing and row.is_written:
                waiting = {**waiting, **placing, **_joined(waiting.get("ALIGN", 1), placing.get("ALIGN", 1))}
            elif is_used is False and placing:
                is_moved = True
            elif is_used and is_moved:
                self.said.append((row.entry.name, ROW_BEFORE))
                is_moved, waiting = False, {}
            elif is_used and waiting:
                self.take_over(row, waiting)
                waiting = {}
        self.look_at_end(area, rows)

    def moves_any(self, area: Entry, rows: List[Row]) -> bool:
        """Returns whether a row without bytes before these rows is seen: in a file always, else by a row that has some, or by the area's end."""
        is_used = any(self.usage.is_used(it.name) is not False for it in rows)
        return is_used or _text(area, "FILE") != '""' or self.is_asked(area, "LAST")

    def look_at_end(self, area: Entry, rows: List[Row]) -> None:
        """Reports a row without bytes after the last row with bytes: it moves the file's end in cc65 alone."""
        is_cut = _text(area, "FILL").upper() in NO | {""} and _text(area, "FILE") != '""'
        late = self.ends_late(rows) if is_cut else None
        if late is not None:
            self.said.append((late.entry.name, "it has no bytes: cc65's file continues to where it would begin, bin65's doesn't"))
        if late is None and self.is_asked(area, "LAST"):
            unused = [it for it in rows if self.usage.is_placed(it.name) and self.usage.is_used(it.name) is False and _placing(it)]
            last = next((at for at in range(len(rows) - 1, -1, -1) if self.usage.is_used(rows[at].name) is not False), -1)
            note = f"nobody uses it: __{area.name.text}_LAST__ counts it in cc65"
            self.said += [(it.entry.name, note) for it in unused if rows.index(it) > last]

    def is_asked(self, area: Entry, what: str) -> bool:
        """Returns whether anything names a symbol of an area."""
        return f"__{area.name.text}_{what}__" in self.usage.words | self.script_words

    def ends_late(self, rows: List[Row]) -> Optional[Row]:
        """Returns a row that is placed after all bytes of these rows and has none itself."""
        for row in reversed(rows):
            if row.name in self.usage.sure and row.is_written:
                return None
            if row.is_written and _placing(row) and (self.usage.is_placed(row.name) or self.usage.is_used(row.name) is not False):
                return row
        return None

    def take_over(self, row: Row, waiting: Dict[str, int]) -> None:
        """Gives a row the alignment or start of the unused rows before it."""
        own = _placing(row)
        if "START" in own or "OFFSET" in own:
            return
        align = max(waiting.get("ALIGN", 1), own.get("ALIGN", 1))
        is_whole = not any(align % it.get("ALIGN", 1) for it in (own, waiting))
        is_only_loaded = not row.is_run and "ALIGN" not in waiting
        if len(waiting) > 1 or not row.is_written or (own and "ALIGN" not in waiting) or not is_whole or is_only_loaded:
            self.said.append((row.entry.name, ROW_BEFORE))
            return
        name, number = next(iter(waiting.items()))
        name = name if row.is_run else "ALIGN_LOAD"
        given = next((it for it in row.entry.attributes if it.name.upper == name and name != "START"), None)
        if given is not None and given.value:
            self.edits.append((given.value[0].start, given.value[-1].end, f"${align:04X}"))
        else:
            if name == "OFFSET":
                self.given[row.name] = number, len(self.edits)
            self.edits.append((row.entry.last.start, row.entry.last.start, f", {name.lower()} = ${number:04X}"))

    def part(self, area: Entry, rows: List[Row]) -> None:
        """Rows that are written after ones that aren't: they go to an area of their own that begins where the first ends."""
        number, is_open, name, begin = 1, False, area.name.text, 0
        parts: List[str] = []
        for at, row in enumerate(rows):
            if not row.is_written and (self.usage.is_used(row.name) is not False):
                is_open = True
            elif row.is_written and is_open and (self.usage.is_used(row.name) is not False or row.name not in ALWAYS):
                number, is_open = number + 1, False
                if self.ends_late(rows[begin:at]):
                    self.said.append((row.entry.name, ROW_BEFORE))
                    return
                begin = at
                if not self.may_be_parted(area):
                    self.said.append((row.entry.name, "a row before it takes space but isn't written: cc65 leaves that space out of the file"))
                    return
                parts.append(self.next_part(area, name, number))
                name = f"{area.name.text}_{number}"
            if number > 1 and not self.moved(area, row):
                self.said.append((row.entry.name, "its offset counts from an area that begins elsewhere: give it a start"))
            if number > 1:
                self.edits += [(it.value[0].start, it.value[0].end, name) for it in row.entry.attributes
                               if it.name.upper in ("LOAD", "RUN") and it.value and it.value[0].text == area.name.text]
        if parts:
            self.edits.append((area.last.end, area.last.end, "".join(parts)))

    def moved(self, area: Entry, row: Row) -> bool:
        """Returns a row's offset as a start, since its area becomes another one; False where that isn't known."""
        it = next((it for it in row.entry.attributes if it.name.upper == "OFFSET"), None)
        if it is None and row.name not in self.given:
            return True
        begin = next((_number(one) for one in area.attributes if one.name.upper == "START"), None)
        if it is None and begin is not None:
            number, at = self.given[row.name]
            self.edits[at] = (*self.edits[at][:2], f", start = ${begin + number:04X}")
            return True
        own = _number(it) if it is not None else None
        if it is None or begin is None or own is None or not row.is_run or _text(row.entry, "RUN") not in ("", area.name.text):
            return False
        self.edits.append((it.name.start, it.value[-1].end, f"start = ${begin + own:04X}"))
        return True

    def may_be_parted(self, area: Entry) -> bool:
        """Returns whether nothing asks for an area's size or end, and its size is a sum of numbers."""
        sums = [*area.get("START"), *area.get("SIZE")]
        is_plain = bool(sums) and all(it.kind == "number" and it.text[0] != "%" or it.text == "+" for it in sums)
        return is_plain and not self.is_asked(area, "SIZE") and not self.is_asked(area, "LAST")

    def next_part(self, area: Entry, before: str, number: int) -> str:
        """Returns an area that begins where another one ends, in the same file."""
        start, size = (self.shown(area.get(it)) for it in ("START", "SIZE"))
        kept = [it for it in area.attributes if it.name.upper in ("FILE", "TYPE", "FILLVAL") and it.value]
        others = "".join(f", {it.name.text} = {self.shown(it.value)}" for it in kept)
        return (f"\n    # what is written behind rows that aren't"
                f"\n    {area.name.text}_{number}: start = __{before}_LAST__, size = {start} + {size} - __{before}_LAST__{others};")

    def shown(self, value: List[Word]) -> str:
        """Returns the text of a value."""
        return self.whole[value[0].start : value[-1].end] if value else ""

    def offsets(self, numbers: Dict[str, Optional[int]]) -> Iterator[Tuple[str, Optional[int], Word]]:
        """Yields the places of areas in their files that sources ask for; None where one isn't known."""
        reached: Dict[str, Optional[int]] = {}
        for it in self.areas:
            file = _text(it, "FILE") or "%O"
            at = reached.get(file, 0)
            if f"__{it.name.text}_FILEOFFS__" in self.usage.words:
                yield f"__{it.name.text}_FILEOFFS__", at, it.name
            is_full = bool(it.get("FILL")) and _text(it, "FILL").upper() not in NO
            is_empty = not any(row.is_written for row in self.rows_of(it.name.text))
            size = numbers.get(it.name.text) if is_full else 0 if is_empty else None
            reached[file] = None if at is None or size is None else at + size


def _text(entry: Entry, name: str) -> str:
    value = entry.get(name)
    return value[0].text if value else ""


def _joined(one: int, other: int) -> Dict[str, int]:
    """Returns the alignment that satisfies two alignments."""
    align = max(one, other) if max(one, other) % min(one, other) == 0 else one * other
    return {"ALIGN": align} if align > 1 else {}


def _placing(row: Row) -> Dict[str, int]:
    """Returns what says where a row begins, as numbers."""
    found: Dict[str, int] = {}
    names = ("ALIGN", "START", "OFFSET") if row.is_run else ("ALIGN_LOAD",)
    for it in row.entry.attributes:
        number = _number(it) if it.name.upper in names else None
        if number is not None and not (number == 1 and it.name.upper.startswith("ALIGN")):
            found["ALIGN" if it.name.upper == "ALIGN_LOAD" else it.name.upper] = number
    return found


def _byte(entry: Entry, otherwise: int = 0) -> int:
    """Returns the fill that an entry gives."""
    it = next((it for it in entry.attributes if it.name.upper == "FILLVAL"), None)
    number = _number(it) if it is not None else None
    return otherwise if number is None else number


def _number(it: Attribute) -> Optional[int]:
    text = it.value[0].text if len(it.value) == 1 else ""
    try:
        return int(text[1:], 16) if text[:1] == "$" else int(text, 0)
    except ValueError:
        return None
