"""The files that a source includes, in order: a copy of it prints each name before it includes the file."""
import os
from dataclasses import dataclass, field
from typing import Iterator, List, Optional, Sequence

from work65.frontend.includes import candidates, find_readable, word_of
from work65.frontend.linked_tree import LinkedTree
from work65.instrumenting.copies import copied_line, free_names, parameters_around
from work65.instrumenting.roles import Role
from work65.instrumenting.sources import Closure, Source
from work65.program import Program
from work65.progress import Progress

INCLUDING = (Role.INCLUDE, Role.INCBIN)


@dataclass
class Dependencies:
    """The files that a source includes, those of them that don't exist, and an error that isn't about a missing file."""

    source: str
    files: List[str] = field(default_factory=list)
    missing: List[str] = field(default_factory=list)
    fault: Optional[str] = None


class Tracer:
    """Finds the dependencies of one source."""

    def __init__(self, closure: Closure, tree: LinkedTree) -> None:
        self.closure, self.tree = closure, tree
        self.begin = free_names(closure).constant
        self.roles: List[Role] = []
        self.found = Dependencies(closure.main.name)

    def copy(self, source: Source) -> str:
        """Returns the copy of a file."""
        around = parameters_around(source)
        lines: List[str] = []
        for number, line in enumerate(source.lines, 1):
            if line.role in INCLUDING and line.statement.rest:
                lines += self.printing(source, number, around[number - 1] is None)
            else:
                lines.append(line.text)
        return "\n".join(lines) + "\n"

    def printing(self, source: Source, number: int, is_outside: bool) -> Iterator[str]:
        """Yields a line that includes a file, and .out lines around it. A file that doesn't exist isn't included."""
        text, statement, role = source.line(number)
        yield f'.out "{self.begin}{len(self.roles)}"'
        yield f".out {statement.rest[0].text}"
        self.roles.append(role)
        word = word_of(statement)
        if is_outside and word is not None and self.file_of(role, word, source) is None:
            if statement.label is not None:
                yield text.split(":")[0] + ":"
            return
        yield copied_line(source, number, self.tree.root)
        yield f'.out "{self.begin}"'

    def file_of(self, role: Role, word: str, opened: Source) -> Optional[str]:
        """Returns the name of an included file, None if it doesn't exist."""
        return find_readable(word, opened.name, self.closure.folders if role is Role.INCLUDE else [])

    def trace(self, program: Program, options: Sequence[str], made: str) -> Dependencies:
        """Assembles the copy, and reads what it prints."""
        for source in list(self.closure.sources.values()):
            self.tree.put(source.name, self.copy(source))
        folders = [f"-I{self.tree.inside(it)}" for it in self.closure.folders]
        words = ["ca65", f"-o{made}", *folders, *options, "--", self.tree.inside(self.closure.main.name)]
        ran = program.run(words, self.tree.here)
        self.tree.restore()
        was_missing = self.read(ran.out.decode("latin-1").split("\n"))
        if ran.status and not was_missing:
            said = ran.err.decode("utf-8", "surrogateescape").strip()
            self.found.fault = said.rpartition("Error: ")[2] or f"bin65 ended with status {ran.status}"
            self.add_named()
        return self.found

    def read(self, lines: List[str]) -> bool:
        """Reads what the copy printed. Returns whether the last file doesn't exist."""
        opened = [self.closure.main]
        roles: List[Role] = []
        waiting = iter(lines)
        was_missing = False
        for it in waiting:
            if it == self.begin and roles:
                if roles.pop() is Role.INCLUDE and len(opened) > 1:
                    opened.pop()
            elif it.startswith(self.begin) and it[len(self.begin) :].isdigit():
                role, word = self.roles[int(it[len(self.begin) :])], next(waiting, "")
                name = self.file_of(role, word, opened[-1])
                was_missing = name is None
                self.add(name, word, opened[-1])
                if name is not None:
                    roles.append(role)
                    if role is Role.INCLUDE and os.path.isfile(name):
                        opened.append(self.closure.read(name))
        return was_missing

    def add(self, name: Optional[str], word: str, opened: Source) -> None:
        """Adds a file, by its first candidate if it doesn't exist."""
        first = next(iter(candidates(word, opened.name, [])), word)
        taken = name or first
        if taken not in self.found.files:
            self.found.files.append(taken)
            if name is None:
                self.found.missing.append(taken)

    def add_named(self) -> None:
        """Adds, after an error, all files that the lines name, also those that don't exist."""
        for source in list(self.closure.sources.values()):
            for line in source.lines:
                word = word_of(line.statement) if line.role in INCLUDING else None
                if word is not None:
                    self.add(self.file_of(line.role, word, source), word, source)


def dependencies_of(program: Program, closures: Sequence[Closure], options: Sequence[str], folder: str) -> List[Dependencies]:
    """Returns the dependencies of each source."""
    tree = LinkedTree(os.path.join(folder, "copies"))
    progress, found = Progress("sources", len(closures)), []
    try:
        for it in closures:
            progress.step()
            found.append(Tracer(it, tree).trace(program, options, os.path.join(folder, "copy")))
    finally:
        progress.end()
    return found
