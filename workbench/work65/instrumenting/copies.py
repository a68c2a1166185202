"""The instrumented copy of a source, which records during assembly which lines are assembled, and their addresses.

There is a constant `= *` before each line that emits something; its value is stored in a segment of the copy's own, after the number
of the line's mark. A constant emits no bytes, begins no region of cheap labels, and isn't counted among unnamed labels. In a file
that is read once it has a name of its own. Elsewhere it is in a scope without a name, since the line may be read again."""
import os
from dataclasses import dataclass
from enum import Enum
from typing import Iterator, List, Optional, Set, Tuple

from work65.frontend.includes import word_of
from work65.frontend.tokens import Kind
from work65.instrumenting.marks import Marks, Sign
from work65.instrumenting.roles import LOCATED, Role
from work65.instrumenting.sources import Closure, Source, SourceLine

# The number of characters after which a line of marks ends. A line has at most 4,096, one mark more at most 200.
TOGETHER = 2000
# Waiting marks are written before these lines, since what follows may be skipped, be read again, or see other names.
EDGES = frozenset(
    (
        Role.CALL, Role.MACRO, Role.END_MACRO, Role.EXIT_MACRO, Role.REPEAT, Role.END_REPEAT, Role.CONDITION, Role.INCLUDE,
        Role.SCOPE, Role.PROC, Role.END_SCOPE, Role.END,
    )
)  # fmt: skip
BEFORE = {Role.CALL: Sign.CALL, Role.REPEAT: Sign.REPEAT, Role.INCLUDE: Sign.INCLUDE}
AFTER = {
    Role.CALL: Sign.BACK,
    Role.REPEAT: Sign.TURN,
    Role.END_REPEAT: Sign.OVER,
    Role.INCLUDE: Sign.INCLUDED,
    Role.END_MACRO: Sign.DEFINED,
    Role.LOCAL: Sign.LOCAL,
    Role.SCOPE: Sign.OPEN,
    Role.PROC: Sign.OPEN,
    Role.END_SCOPE: Sign.CLOSE,
}


class Constants(Enum):
    """The constants whose values are recorded."""

    NONE = 0
    LABELS = 1
    ALL = 2


@dataclass(frozen=True)
class CopyNames:
    """The names of a copy: its segment, and the beginning of its constants."""

    segment: str
    constant: str


def free_names(closure: Closure) -> CopyNames:
    """Returns names that no file contains."""
    lines = (it.statement for source in closure.sources.values() for it in source.lines)
    used = {it.text.strip('"') for statement in lines for it in (statement.label, *statement.body) if it is not None}
    number = 65
    while any(it.startswith((f"W{number}_", f"w{number}_")) for it in used):
        number += 1
    return CopyNames(f"W{number}_MARKS", f"w{number}_")


def parameters_around(source: Source) -> List[Optional[Set[str]]]:
    """Returns, for each line, the parameters of the macro around it, an empty set in a repeat, None outside both."""
    found: List[Optional[Set[str]]] = []
    repeats, parameters = 0, None
    for line in source.lines:
        if line.role is Role.END_REPEAT:
            repeats = max(repeats - 1, 0)  # one may stand alone in a branch that isn't assembled
        elif line.role is Role.END_MACRO:
            parameters = None
        found.append(set() if parameters is None and repeats > 0 else parameters)
        if line.role is Role.REPEAT:
            repeats += 1
        elif line.role is Role.MACRO:
            parameters = {it.text for it in line.statement.body[2:] if it.kind is Kind.NAME}
    return found


def read_once(closure: Closure) -> Set[str]:
    """Returns the places of the files whose lines outside macros and repeats are read at most once."""
    times = {closure.main.place: 1}
    once = {closure.main.place}
    for source in closure.sources.values():
        for included in source.includes.values():
            times[included.place] = times.get(included.place, 0) + 1
    waiting = [closure.main] if closure.is_plain else []
    while waiting:
        source = waiting.pop()
        around = parameters_around(source)
        for number, included in source.includes.items():
            if around[number - 1] is None and times[included.place] == 1 and included.place not in once:
                once.add(included.place)
                waiting.append(included)
    return once


def copied_line(source: Source, number: int, root: str) -> str:
    """Returns a line for a copy below the folder `root`. A file that it includes by an absolute path is a copy, too."""
    line = source.line(number)
    word = word_of(line.statement) or ""
    if number in source.includes and word.startswith("/"):
        return line.text.replace(f'"{word}"', f'"{os.fsencode(root).decode("latin-1")}{word}"', 1)
    return line.text


class CopyWriter:
    """Writes the copy of one file."""

    def __init__(self, source: Source, copies: "Copies", macros: Set[str], is_once: bool) -> None:
        self.source, self.copies, self.macros, self.is_once = source, copies, macros, is_once
        self.written: List[str] = []
        self.waiting: List[str] = []
        self.length = 0

    def text(self) -> str:
        """Returns the text of the copy."""
        around = parameters_around(self.source)
        for number, line in enumerate(self.source.lines, 1):
            self.add(number, line, around[number - 1])
        self.flush()
        return "\n".join(self.written) + "\n"

    def add(self, number: int, line: SourceLine, parameters: Optional[Set[str]]) -> None:
        """Writes a line with the marks before and after it."""
        role, statement = line.role, line.statement
        if role is Role.CONSTANT and statement.body[0].text in self.macros:
            role = Role.CALL
        is_unsure = role is Role.CALL and bool(parameters) and statement.body[0].text in (parameters or ())
        if role in EDGES and (role not in BEFORE or statement.label or is_unsure):
            self.flush()
        if statement.label or role in LOCATED or is_unsure:
            self.address(number, BEFORE.get(role, Sign.AT), parameters is None)
        elif role in BEFORE:
            self.wait(self.mark(BEFORE[role], number))
        if role in EDGES:
            self.flush()
        self.written.append(copied_line(self.source, number, self.copies.root))
        if role is Role.SCOPE:
            self.address(number, Sign.OPEN, parameters is None)  # it has the segment
        elif role in AFTER:
            self.wait(self.mark(AFTER[role], number))
        elif role is Role.CONSTANT and self.is_wanted(statement.body[1].text):
            name = statement.body[0].text
            self.wait(self.mark(Sign.CONSTANT, number, True), f"({name})&$FFFFFFFF")

    def mark(self, sign: Sign, number: int, has_value: bool = False) -> int:
        """Adds a mark. Returns its number."""
        return self.copies.marks.add(sign, self.source, number, has_value)

    def is_wanted(self, operator: str) -> bool:
        """Returns whether the value of a constant that is defined with this operator is recorded."""
        constants = self.copies.constants
        return constants is Constants.ALL or (constants is Constants.LABELS and operator == ":=")

    def wait(self, mark: int, value: Optional[str] = None) -> None:
        """Keeps a mark, to be written together with others."""
        self.waiting.append(str(mark) if value is None else f"{mark},{value}")
        self.length += len(self.waiting[-1]) + 1
        if self.length >= TOGETHER:
            self.flush()

    def address(self, number: int, sign: Sign, is_outside: bool) -> None:
        """Adds a mark with the address at this line."""
        mark = self.mark(sign, number, True)
        name = self.copies.names.constant
        if is_outside and self.is_once:
            self.written.append(f"{name}{mark}=*")
            self.wait(mark, f"{name}{mark}")
            return
        self.written += [".scope", f"{name}_=*"]
        self.wait(mark, f"{name}_")
        self.flush()
        self.written.append(".endscope")

    def flush(self) -> None:
        """Writes the pending marks."""
        if self.waiting:
            segment = self.copies.names.segment
            self.written += [".pushseg", f'.segment "{segment}"', ".dword " + ",".join(self.waiting), ".popseg"]
            self.waiting, self.length = [], 0


class Copies:
    """The copies of a module's files below the folder `root`, and their marks."""

    def __init__(self, closure: Closure, constants: Constants, root: str) -> None:
        self.closure, self.constants, self.root = closure, constants, root
        self.names, self.marks = free_names(closure), Marks()

    def texts(self) -> Iterator[Tuple[Source, str]]:
        """Yields each file with the text of its copy."""
        once, sources = read_once(self.closure), self.closure.sources.values()
        heads = (line.statement.rest for source in sources for line in source.lines if line.role is Role.MACRO)
        macros = {it[0].text for it in heads if it}
        for source in sources:
            yield source, CopyWriter(source, self, macros, source.place in once).text()
