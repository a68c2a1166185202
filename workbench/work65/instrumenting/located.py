"""The information in a module's marks: its lines with their addresses, calls and repeats, scopes and symbols."""
from dataclasses import dataclass, field
from typing import Dict, List, Optional, Union

from work65.formats.objects import Form, Place
from work65.instrumenting.sources import Source


@dataclass
class LocatedLine:
    """A line that was assembled: its text, the first word of its statement, its place and its size in bytes."""

    source: Source
    line: int
    text: str
    word: str
    place: Place
    depth: int
    in_macro: bool
    reading: "FileReading"
    size: int = 0


@dataclass
class FileReading:
    """One reading of a file: its located lines by number, and below a line those of calls and repeats, and included files."""

    source: Source
    lines: Dict[int, LocatedLine] = field(default_factory=dict)
    below: Dict[int, List[Union[LocatedLine, "FileReading"]]] = field(default_factory=dict)


@dataclass
class Expansion:
    """A finished call or repeat: its line, and its located lines without those of files that it included."""

    source: Source
    line: int
    depth: int
    in_macro: bool
    lines: List[LocatedLine]


@dataclass
class Scope:
    """A scope: its located lines from `first` up to `last`, and of a .proc the index of its label. `parent` is the index of the
    scope around it."""

    name: str
    parent: Optional[int]
    is_proc: bool
    first: int
    last: int = -1
    label: Optional[int] = None
    section: str = ""


@dataclass
class Symbol:
    """A label or a constant. `at` is the index of a label's located line, `region` that of the symbol that a cheap label follows."""

    name: str
    scope: int
    value: Form
    source: Source
    line: int
    at: Optional[int]
    is_constant: bool
    is_equate: bool = False
    region: Optional[int] = None


@dataclass
class LocatedModule:
    """All that the marks of a module say."""

    reading: FileReading
    lines: List[LocatedLine] = field(default_factory=list)
    expansions: List[Expansion] = field(default_factory=list)
    scopes: List[Scope] = field(default_factory=list)
    symbols: List[Symbol] = field(default_factory=list)
