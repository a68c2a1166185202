"""Reads the records of a debug file of ld65 --dbgfile, in version 2 of the format."""
import os
import re
from typing import Dict, List, Optional

from work65.frontend.files import read_text
from work65.problem import Problem

KINDS = ("file", "lib", "line", "mod", "scope", "seg", "span", "sym", "type")
VERSION = "version\tmajor=2,minor="
FIELD = re.compile(r'(\w+)=("[^"]*"|[^,"]*)(?:,|$)')


class Record:
    """The fields of a record. One that lacks, or isn't of its kind, raises a ValueError."""

    def __init__(self, text: str) -> None:
        self.fields = dict(FIELD.findall(text))
        if sum(len(name) + len(value) + 2 for name, value in FIELD.findall(text)) != len(text) + 1:
            raise ValueError

    def word(self, name: str) -> str:
        """Returns the text of a field, empty if there is none."""
        return self.fields.get(name, "")

    def name(self) -> str:
        """Returns the name, such as that of a file."""
        value = self.word("name")
        if len(value) < 2 or value[0] != '"':
            raise ValueError
        return unquoted(value)

    def number(self, name: str, default: Optional[int] = None) -> int:
        """Returns the number of a field."""
        if name not in self.fields and default is not None:
            return default
        found = int(self.word(name), 0)
        if not 0 <= found < 1 << 32:
            raise ValueError
        return found

    def numbers(self, name: str) -> List[int]:
        """Returns the numbers of a list, none if there is no such field."""
        parts = self.word(name).split("+") if name in self.fields else []
        if not all(it.isdigit() and it.isascii() for it in parts):
            raise ValueError
        return list(map(int, parts))


def unquoted(value: str) -> str:
    """Returns the name in a quoted value."""
    return os.fsdecode(value[1:-1].encode("latin-1"))


class DebugRecords:
    """The records of a debug file by their kinds, each at the index of its number."""

    def __init__(self, path: str) -> None:
        self.path = path
        lines = read_text(path).split("\n")
        if not lines[0].startswith(VERSION):
            raise Problem(f"{path}: not a debug file of ld65 in version 2")
        with_kinds = [line.rstrip("\r").partition("\t") for line in lines[1:] if line.strip()]
        self.kinds: Dict[str, List[Record]] = {kind: [] for kind in KINDS}
        try:
            heads = [Record(text) for kind, _, text in with_kinds if kind == "info"]
            for kind, _, text in with_kinds:
                if kind in self.kinds:
                    self.add(kind, Record(text))
            wrong = {it for it in KINDS if heads[0].number(it) != len(self.kinds[it])}
            is_whole = wrong <= {"file"}  # ld65 also counts files of members that it doesn't link
        except (ValueError, IndexError):
            is_whole = False
        if not is_whole:
            raise Problem(f"{path}: the debug file is cut or damaged")

    def add(self, kind: str, record: Record) -> None:
        """Adds a record. The records of a kind are in the order of their numbers."""
        if record.number("id") != len(self.kinds[kind]):
            raise ValueError
        self.kinds[kind].append(record)

    def all(self, kind: str) -> List[Record]:
        """Returns all records of a kind."""
        return self.kinds[kind]

    def at(self, kind: str, number: int) -> Record:
        """Returns a record by its number."""
        return self.kinds[kind][number]
