"""Follows the marks of a copy in the order in which the assembler reached them, and records lines, scopes and symbols."""
from typing import Dict, List, Optional, Sequence

from work65.formats.objects import Form, Operation, Place
from work65.frontend.tokens import Kind
from work65.instrumenting.frames import Frame, Frames
from work65.instrumenting.located import Expansion, LocatedLine, LocatedModule, Scope, Symbol
from work65.instrumenting.marks import Mark, ReachedMark, Sign
from work65.instrumenting.roles import Role
from work65.instrumenting.sources import Closure, SourceLine

# The mark of a constant has the low 32 bits of its value.
MASK = 0xFFFFFFFF


class Recorder:
    """Records what the marks say."""

    def __init__(self, closure: Closure) -> None:
        self.frames = Frames(closure)
        self.module = LocatedModule(self.frames.innermost.reading)
        self.module.scopes.append(Scope("", None, False, 0, section="CODE"))
        self.open_scopes = [0]
        self.region: Optional[int] = None
        self.last: Dict[str, LocatedLine] = {}

    def record(self, reached: ReachedMark) -> None:
        """Records a mark."""
        mark, value = reached
        if mark.sign is Sign.CONSTANT:
            self.constant(mark, value)
        elif mark.sign is Sign.OPEN:
            self.open_scope(mark, value.section if isinstance(value, Place) else "")
        elif mark.sign is Sign.CLOSE:
            self.close_scope()
        else:
            if isinstance(value, Place):
                self.line(mark, value)
            closed = self.frames.follow(mark, len(self.module.lines))
            if closed is not None:
                self.expansion(closed)

    def finish(self, sizes: Dict[str, int]) -> LocatedModule:
        """Ends the last line of each section and open scopes."""
        for name, line in self.last.items():
            line.size = sizes.get(name, line.place.offset) - line.place.offset
        for scope in self.module.scopes:
            scope.last = len(self.module.lines) if scope.last < 0 else scope.last
        return self.module

    def line(self, mark: Mark, place: Place) -> None:
        """Records a line with its place. It ends the line before it in its section."""
        frame, line = self.frames.innermost, self.frames.line(mark)
        head = line.statement.head
        located = LocatedLine(mark.source, mark.line, line.text, head, place, frame.depth, frame.sign is Sign.CALL, frame.reading)
        before = self.last.get(place.section)
        if before is not None:
            before.size = place.offset - before.place.offset
        self.last[place.section] = located
        self.module.lines.append(located)
        if frame.sign is Sign.INCLUDE:
            frame.reading.lines[mark.line] = located
        else:
            frame.reading.below.setdefault(frame.anchor, []).append(located)
        for name in _labels(line):
            self.label(name, located)

    def label(self, name: str, line: LocatedLine) -> None:
        """Records a label of the last line."""
        is_cheap, symbols = name.startswith("@"), self.module.symbols
        region = self.region if is_cheap else None
        at = len(self.module.lines) - 1
        symbols.append(Symbol(name, self.open_scopes[-1], line.place, line.source, line.line, at, False, region=region))
        if not is_cheap:
            self.region = len(symbols) - 1

    def constant(self, mark: Mark, value: Optional[Form]) -> None:
        """Records a constant with its value."""
        body = self.frames.line(mark).statement.body
        if isinstance(value, Operation) and value.parts[-1] == MASK:
            value = value.parts[0]
        if value is not None and len(body) > 1:
            scope, is_equate = self.open_scopes[-1], body[1].text == "="
            self.module.symbols.append(Symbol(body[0].text, scope, value, mark.source, mark.line, None, True, is_equate))

    def expansion(self, frame: Frame) -> None:
        """Records a finished call or repeat, if it has lines."""
        lines = [it for it in self.module.lines[frame.first :] if it.reading is frame.reading]
        if lines:
            around = self.frames.innermost
            self.module.expansions.append(Expansion(frame.source, frame.line, around.depth, around.sign is Sign.CALL, lines))

    def open_scope(self, mark: Mark, section: str) -> None:
        """Opens a scope in a section. The section of a .proc is that of its label."""
        line, module = self.frames.line(mark), self.module
        name = line.statement.rest[0].text if line.statement.rest else ""
        scope = Scope(name, self.open_scopes[-1], line.role is Role.PROC, len(module.lines), section=section)
        if scope.is_proc:
            scope.label = len(module.symbols) - 1
            scope.first -= 1
            scope.section = module.lines[scope.first].place.section
        module.scopes.append(scope)
        self.open_scopes.append(len(module.scopes) - 1)

    def close_scope(self) -> None:
        """Closes the innermost scope."""
        if len(self.open_scopes) > 1:
            self.module.scopes[self.open_scopes.pop()].last = len(self.module.lines)


def _labels(line: SourceLine) -> List[str]:
    """Returns the names that a line defines as labels: its label if it isn't unnamed, and the name of a .proc."""
    label, rest = line.statement.label, line.statement.rest
    names = [label.text] if label is not None and label.kind is not Kind.SIGN else []
    return [*names, rest[0].text] if line.role is Role.PROC and rest else names


def replay(closure: Closure, marks: Sequence[ReachedMark], sizes: Dict[str, int]) -> LocatedModule:
    """Returns what the marks of a copy say. `sizes` are those of the sections of the source's own object."""
    recorder = Recorder(closure)
    for it in marks:
        recorder.record(it)
    return recorder.finish(sizes)
