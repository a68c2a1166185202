"""A config of cc65's linker: memory areas, segments, symbols, formats and tables of .condes."""
import os
import re
from typing import Dict, List, Mapping, NamedTuple, Optional, Sequence, Tuple

from work65.frontend.script_sums import value_of
from work65.frontend.scripts import Entry, Word, blocks_of, words_of
from work65.problem import Problem

Words = Sequence[Word]
SWITCHES = {"YES": True, "TRUE": True, "1": True, "NO": False, "FALSE": False, "0": False}
KINDS, UNWRITTEN = ("RO", "RW", "BSS", "ZP"), ("BSS", "ZP")
BINARY, ATARI = "BINARY", "ATARI"
FORMATS = {"BIN": BINARY, "BINARY": BINARY, "ATARI": ATARI}
# The tables of .condes that a config may name.
TABLES = {"CONSTRUCTOR": 0, "DESTRUCTOR": 1, "INTERRUPTOR": 2}
DEFAULT_START = 0x200
ESCAPE = re.compile("%O|%%")
# The attributes of each block's entries. FORMATS has entries of another kind.
BLOCKS: Dict[str, Tuple[str, ...]] = {
    "MEMORY": ("START", "SIZE", "TYPE", "FILE", "FILL", "FILLVAL", "DEFINE", "BANK"),
    "SEGMENTS": ("LOAD", "RUN", "TYPE", "ALIGN", "ALIGN_LOAD", "START", "OFFSET", "FILLVAL",
                 "DEFINE", "OPTIONAL"),
    "SYMBOLS": ("TYPE", "VALUE", "ADDRSIZE"),
    "FILES": ("FORMAT",),
    "FORMATS": (),
    "FEATURES": ("TYPE", "LABEL", "COUNT", "SEGMENT", "ORDER", "IMPORT", "DEFAULT"),
}  # fmt: skip


class Area(NamedTuple):
    """A memory area: the words of its start, size and bank (none if it has no bank)."""

    name: str
    line: int
    start: Words
    size: Words
    file: str
    is_filled: bool
    fill: int
    is_defined: bool
    is_fixed: bool
    bank: Words


class Row(NamedTuple):
    """A row of SEGMENTS: its type in upper case, and the attributes that place it."""

    name: str
    line: int
    load: str
    run: str
    kind: str
    align: Optional[int]
    align_load: Optional[int]
    start: Optional[int]
    offset: Optional[int]
    fill: Optional[int]
    is_defined: bool

    @property
    def is_written(self) -> bool:
        """Returns whether the segment has bytes in its load area's file."""
        return self.kind not in UNWRITTEN


class Symbol(NamedTuple):
    """A symbol: its type in upper case, and the words of its value."""

    name: str
    line: int
    kind: str
    value: Words


class Table(NamedTuple):
    """A table of .condes: its type, where it is, the name of its length, and what it imports."""

    number: int
    label: str
    segment: str
    length_name: str
    is_decreasing: bool
    imported: str


class Atari(NamedTuple):
    """What FORMATS says on ATARI: where the program starts, and what is called after an area."""

    start: str = ""
    calls: Tuple[Tuple[str, str], ...] = ()


class Config(NamedTuple):
    """A config. `formats` has the files that have one."""

    areas: List[Area]
    rows: List[Row]
    symbols: List[Symbol]
    tables: List[Table]
    formats: Mapping[str, str]
    atari: Atari


class Given(NamedTuple):
    """What a command line gives to a config: the names of both files, and %S if it has -S."""

    name: str
    output: str
    start: Optional[int] = None


def named(text: str, output: str) -> str:
    """Returns the file that a string of a config names, in which %O is the output's name."""
    return ESCAPE.sub(lambda it: output if it[0] == "%O" else "%", text)


def read_config(text: str, given: Given) -> Config:
    """Reads a config. Raises a Problem for what isn't one, and for what bin65 can't do."""
    try:
        return _Reader(text, given).config()
    except (IndexError, ValueError, KeyError):
        raise Problem(f"{given.name}: no config that cc65's linker takes") from None


class _Reader:
    """Reads the blocks of a config."""

    def __init__(self, text: str, given: Given) -> None:
        self.given = given
        self.start = DEFAULT_START if given.start is None else given.start
        self.entries: Dict[str, List[Entry]] = {it: [] for it in BLOCKS}
        for block in blocks_of(words_of(text)):
            if block.word.upper not in BLOCKS:
                raise self.problem(block.word, "is no block of a config")
            for entry in block.entries:
                self.add(block.word.upper, entry)

    def add(self, block: str, entry: Entry) -> None:
        """Adds an entry, in which %S is the start that the config has set so far."""
        for it in entry.attributes if block != "FORMATS" else ():
            if it.name.upper not in BLOCKS[block] or not it.value:
                raise self.problem(it.name, "is no attribute there")
            it.value = [
                one._replace(kind="number", text=str(self.start)) if one.upper == "%S" else one
                for one in it.value
            ]
        self.entries[block].append(entry)
        if block == "FEATURES":
            if entry.name.upper not in ("CONDES", "STARTADDRESS"):
                raise self.problem(entry.name, "is no feature that is known")
            default = self.number(entry, "DEFAULT")
            self.start = self.start if default is None or self.given.start is not None else default

    def config(self) -> Config:
        """Reads all blocks."""
        features = self.entries["FEATURES"]
        return Config(
            list(map(self.area, self.entries["MEMORY"])),
            list(map(self.row, self.entries["SEGMENTS"])),
            list(map(self.symbol, self.entries["SYMBOLS"])),
            [self.table(it) for it in features if it.name.upper == "CONDES"],
            dict(map(self.format_of, self.entries["FILES"])), self.atari(),
        )  # fmt: skip

    def problem(self, word: Word, text: str) -> Problem:
        """Returns the message about a word of the config."""
        return Problem(f"{self.given.name}:{word.line}: {word.text} {text}")

    def number(self, entry: Entry, name: str) -> Optional[int]:
        """Returns the number of an attribute, None if there is none."""
        words = entry.get(name)
        found = value_of(words, {}) if words else None
        if words and found is None:
            raise self.problem(words[0], "isn't constant")
        return found

    def text(self, entry: Entry, name: str, otherwise: str = "") -> str:
        """Returns a name or a string."""
        words = entry.get(name)
        return self.string(words[0]) if words else otherwise

    def string(self, word: Word) -> str:
        """Returns the text of a word, in which %O is the output's name."""
        if word.kind not in ("string", "output"):
            return word.text
        is_output = word.kind == "output"
        text = "%O" if is_output else os.fsdecode(word.text.strip('"').encode("latin-1"))
        return named(text, self.given.output)

    def switch(self, entry: Entry, name: str) -> bool:
        """Returns whether an attribute is set."""
        return SWITCHES[self.text(entry, name, "NO").upper()]

    def area(self, entry: Entry) -> Area:
        """Reads an entry of MEMORY."""
        start, size = entry.get("START"), entry.get("SIZE")
        if not start or not size:
            raise self.problem(entry.name, "lacks a start or a size")
        file, kind = self.text(entry, "FILE", self.given.output), self.text(entry, "TYPE")
        return Area(
            entry.name.text, entry.name.line, start, size, file, self.switch(entry, "FILL"),
            self.number(entry, "FILLVAL") or 0, self.switch(entry, "DEFINE"),
            kind.upper() == "RO", entry.get("BANK"),
        )  # fmt: skip

    def row(self, entry: Entry) -> Row:
        """Reads an entry of SEGMENTS."""
        load, kind = self.text(entry, "LOAD"), self.text(entry, "TYPE", "RW").upper()
        if kind not in KINDS:
            raise self.problem(entry.name, f"has the type {kind.lower()}, which bin65 doesn't have")
        numbers = ("ALIGN", "ALIGN_LOAD", "START", "OFFSET", "FILLVAL")
        align, align_load, start, offset, fill = (self.number(entry, it) for it in numbers)
        return Row(
            entry.name.text, entry.name.line, load, self.text(entry, "RUN", load), kind, align,
            align_load, start, offset, fill, self.switch(entry, "DEFINE"),
        )  # fmt: skip

    def symbol(self, entry: Entry) -> Symbol:
        """Reads an entry of SYMBOLS."""
        kind, value = self.text(entry, "TYPE").upper(), entry.get("VALUE")
        if kind not in ("EXPORT", "IMPORT", "WEAK") or bool(value) == (kind == "IMPORT"):
            raise self.problem(entry.name, "isn't complete or has an unknown type")
        return Symbol(entry.name.text, entry.name.line, kind, value)

    def format_of(self, entry: Entry) -> Tuple[str, str]:
        """Reads an entry of FILES."""
        kind = self.text(entry, "FORMAT").upper()
        if kind not in FORMATS:
            raise self.problem(entry.name, f"has the format {kind.lower()}, which can't be made")
        return self.string(entry.name), FORMATS[kind]

    def table(self, entry: Entry) -> Table:
        """Reads a table of FEATURES."""
        kind = self.text(entry, "TYPE").upper()
        number = TABLES[kind] if kind in TABLES else int(kind)
        label, segment, count = (self.text(entry, it) for it in ("LABEL", "SEGMENT", "COUNT"))
        is_decreasing = self.text(entry, "ORDER").upper() == "DECREASING"
        return Table(number, label, segment, count, is_decreasing, self.text(entry, "IMPORT"))

    def atari(self) -> Atari:
        """Reads what FORMATS says on ATARI. The name of a call follows its area after a colon."""
        entries = [it for it in self.entries["FORMATS"] if it.name.upper == ATARI]
        parts = [it for entry in entries for it in entry.attributes]
        start, calls = "", []
        for at, it in enumerate(parts):
            if it.name.upper == "RUNAD":
                start = it.value[0].text
            elif it.name.upper == "INITAD":
                calls.append((it.value[0].text, parts[at + 1].value[0].text))
            elif it.name.text != ":":
                raise self.problem(it.name, "is no attribute there")
        return Atari(start, tuple(calls))
