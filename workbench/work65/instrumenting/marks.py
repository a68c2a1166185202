"""Marks: numbers that an instrumented copy writes into a segment of its own while it is assembled, and reading them back."""
from dataclasses import dataclass
from enum import IntEnum, auto
from typing import Iterator, List, NamedTuple, Optional, Union

from work65.formats.objects import Fill, Form, Object
from work65.instrumenting.sources import Source
from work65.problem import Problem


class Sign(IntEnum):
    """The meaning of a mark for its line."""

    AT = auto()  # the line emits something or has a label
    CALL = auto()  # the line calls a macro
    BACK = auto()  # the call is over
    REPEAT = auto()  # a repeat begins
    TURN = auto()  # one more turn of it begins
    OVER = auto()  # the repeat is over
    INCLUDE = auto()  # the lines of an included file follow
    INCLUDED = auto()  # the file is over
    DEFINED = auto()  # a macro was defined
    LOCAL = auto()  # the names are those of the call from here on
    OPEN = auto()  # a scope was opened
    CLOSE = auto()  # a scope was closed
    CONSTANT = auto()  # a constant was defined


@dataclass(frozen=True)
class Mark:
    """A mark: its sign, its line, and whether an address or a value follows its number."""

    sign: Sign
    source: Source
    line: int
    has_value: bool


class ReachedMark(NamedTuple):
    """A mark that the assembler reached, with the address or the value after it."""

    mark: Mark
    value: Optional[Form]


class Marks:
    """All marks of a module, by number."""

    def __init__(self) -> None:
        self.all: List[Mark] = []

    def add(self, sign: Sign, source: Source, line: int, has_value: bool = False) -> int:
        """Adds a mark. Returns its number."""
        self.all.append(Mark(sign, source, line, has_value))
        return len(self.all) - 1

    def reached(self, copy: Object, segment: str, name: str) -> List[ReachedMark]:
        """Reads the marks in the object of a copy, in the order in which the assembler reached them. Raises a Problem if a number is
        none of a mark."""
        found: List[ReachedMark] = []
        stream = _values(copy, segment)
        for number in stream:
            if not isinstance(number, int) or number >= len(self.all):
                raise Problem(f"{name}: the marks of its copy can't be read")
            mark = self.all[number]
            found.append(ReachedMark(mark, next(stream, None) if mark.has_value else None))
        return found


def _values(copy: Object, segment: str) -> Iterator[Union[int, Form]]:
    """Yields the values in a segment, four bytes each."""
    section = copy.section(segment)
    rest = b""
    for fragment in section.fragments if section else []:
        if isinstance(fragment, bytes) and len(fragment) == 4 and not rest:
            yield int.from_bytes(fragment, "little")
        elif isinstance(fragment, bytes):
            rest += fragment
            whole = len(rest) - len(rest) % 4
            for at in range(0, whole, 4):
                yield int.from_bytes(rest[at : at + 4], "little")
            rest = rest[whole:]
        elif not isinstance(fragment, Fill):
            yield fragment.form
