"""The files of a module: a source and all that it may include, found as bin65 finds them."""
import os
from dataclasses import dataclass, field
from functools import lru_cache
from typing import Callable, Dict, Iterable, Iterator, List, NamedTuple, Optional, Sequence, Set, Tuple

from work65.frontend.files import place_of, text_of
from work65.frontend.includes import find_readable, word_of
from work65.frontend.reach import reached
from work65.frontend.statements import Statement, accepted_statement
from work65.frontend.tokens import Kind
from work65.instrumenting.roles import Role, role_of


class SourceLine(NamedTuple):
    """A line: its text, its statement and the role of that."""

    text: str
    statement: Statement
    role: Role


@lru_cache(maxsize=1 << 16)
def source_line(text: str, is_expanded: bool = False) -> SourceLine:
    """Reads a line, which may be one of a call with its names replaced. Many lines of a program are the same."""
    statement = accepted_statement(text, is_expanded)
    return SourceLine(text, statement, role_of(statement))


@dataclass
class Source:
    """A file: its name as bin65 prints it, its place, its lines, and the files that lines include, by line number."""

    name: str
    place: str
    lines: List[SourceLine]
    includes: Dict[int, "Source"] = field(default_factory=dict)

    def line(self, number: int) -> SourceLine:
        """Returns a line by its number from 1."""
        return self.lines[number - 1]


def macro_lines(source: Source) -> Iterator[Tuple[str, SourceLine]]:
    """Yields the lines of a file's macros, each with its macro's name."""
    name = ""
    for line in source.lines:
        if line.role is Role.MACRO and line.statement.rest:
            name = line.statement.rest[0].text
        elif line.role is Role.END_MACRO:
            name = ""
        elif name:
            yield name, line


def including_macros(sources: Iterable[Source]) -> Set[str]:
    """Returns the macros that include a file named by an argument, directly or by another macro."""
    found: Set[str] = set()
    callers: Dict[str, List[str]] = {}
    for source in sources:
        for name, line in macro_lines(source):
            if line.role is Role.INCLUDE and word_of(line.statement) is None:
                found.add(name)
            elif line.role is Role.CALL:
                callers.setdefault(line.statement.body[0].text, []).append(name)
    return reached(found, lambda it: callers.get(it, ()))


class Closure:
    """A source and all files that it may include. It is plain if no macro includes a file."""

    def __init__(self, name: str, folders: Sequence[str]) -> None:
        self.folders = list(folders)
        self.sources: Dict[str, Source] = {}
        self.main = self.read(name)
        self.follow(self.included)
        self.including = including_macros(self.sources.values())
        if self.including:
            self.follow(self.given)
        lines = [it.statement for source in self.sources.values() for _, it in macro_lines(source) if it.role is Role.INCLUDE]
        words = {it for it in map(word_of, lines) if it is not None}
        self.is_plain = not self.including and not words
        for source in list(self.sources.values()) if words else []:
            for word in words:
                self.found(word, source)  # bin65 starts from the file that has the call

    def read(self, name: str) -> Source:
        """Returns a file by its name. Reads each file once."""
        place = place_of(name)
        if place not in self.sources:
            self.sources[place] = Source(name, place, [source_line(it) for it in text_of(name).lines])
        return self.sources[place]

    def found(self, word: str, source: Source) -> Optional[Source]:
        """Returns the file that a source names, None if it doesn't exist."""
        name = find_readable(word, source.name, self.folders)
        return self.read(name) if name is not None and os.path.isfile(name) else None

    def follow(self, more: Callable[[Source], Iterator[Source]]) -> None:
        """Reads the files that the sources name, and those that these name."""
        waiting = list(self.sources.values())
        seen = {it.place for it in waiting}
        while waiting:
            for it in more(waiting.pop()):
                if it.place not in seen:
                    seen.add(it.place)
                    waiting.append(it)

    def included(self, source: Source) -> Iterator[Source]:
        """Yields the files that a file's lines include by name."""
        for number, line in enumerate(source.lines, 1):
            if line.role not in (Role.INCLUDE, Role.INCBIN):
                continue
            word = word_of(line.statement)
            if word is not None and line.role is Role.INCBIN:
                find_readable(word, source.name, [])
                continue
            it = None if word is None else self.found(word, source)
            if it is not None:
                source.includes[number] = it
                yield it

    def given(self, source: Source) -> Iterator[Source]:
        """Yields the same files, and those that are arguments of calls whose macros may include them."""
        yield from self.included(source)
        for line in source.lines:
            if line.role is Role.CALL and line.statement.body[0].text in self.including:
                for token in line.statement.rest:
                    it = self.found(token.text[1:-1], source) if token.kind is Kind.STRING else None
                    if it is not None:
                        yield it
