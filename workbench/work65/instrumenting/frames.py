"""The files, calls and repeats that are open at a mark, and the text of a line in them with its names replaced."""
from dataclasses import dataclass, field
from typing import Dict, Optional, Tuple

from work65.frontend import words
from work65.frontend.includes import word_of
from work65.frontend.macros import arguments_of, given_by, substituted
from work65.frontend.statements import block_length, parts_of
from work65.frontend.tokens import Kind
from work65.instrumenting.located import FileReading
from work65.instrumenting.marks import Mark, Sign
from work65.instrumenting.roles import Role
from work65.instrumenting.sources import Closure, Source, SourceLine, source_line

ENDS = {Sign.BACK: Sign.CALL, Sign.OVER: Sign.REPEAT, Sign.INCLUDED: Sign.INCLUDE}


@dataclass
class Frame:
    """An open file, call or repeat.

    `line` is the line that opened it, `anchor` the line of the file below which its lines are listed, `first` the index of its
    first located line, `depth` the number of open calls and repeats, `number` the number of a call in its module or the turn of a
    repeat. `given` are the texts of parameters, local names or the counter."""

    sign: Sign
    source: Source
    line: int
    anchor: int
    first: int
    reading: FileReading
    depth: int = 0
    given: Dict[str, str] = field(default_factory=dict)
    number: int = -1


class Frames:
    """Follows the marks that open and close files, calls and repeats."""

    def __init__(self, closure: Closure) -> None:
        self.closure = closure
        self.open = [Frame(Sign.INCLUDE, closure.main, 0, 0, 0, FileReading(closure.main))]
        self.macros: Dict[str, Tuple[str, ...]] = {}
        self.calls = 0
        self.actions = {
            Sign.CALL: self.call, Sign.REPEAT: self.repeat, Sign.TURN: self.turn, Sign.INCLUDE: self.include,
            Sign.DEFINED: self.defined, Sign.LOCAL: self.local,
        }  # fmt: skip

    @property
    def innermost(self) -> Frame:
        """The innermost frame."""
        return self.open[-1]

    def line(self, mark: Mark) -> SourceLine:
        """Returns the line of a mark with the names replaced that the calls and repeats around it replace."""
        line = mark.source.line(mark.line)
        around = []
        for frame in reversed(self.open):
            if frame.sign is Sign.INCLUDE:
                break
            around.append(frame.given)
            if frame.sign is Sign.CALL:
                break
        text = line.text
        for given in reversed(around):
            text = substituted(text, given, is_expanded=True)
        return source_line(text, True) if around else line

    def follow(self, mark: Mark, count: int) -> Optional[Frame]:
        """Follows a mark, before which there are `count` located lines. Returns the call or repeat that it closes, if it closes one."""
        if mark.sign in ENDS:
            return self.close(ENDS[mark.sign], mark.line)
        if mark.sign in self.actions:
            self.actions[mark.sign](mark, count)
        return None

    def push(self, sign: Sign, mark: Mark, given: Dict[str, str], first: int, last_line: int) -> Frame:
        """Opens a call or a repeat, which ends in a line."""
        frame = self.innermost
        anchor = last_line if frame.sign is Sign.INCLUDE else frame.anchor
        self.open.append(Frame(sign, mark.source, last_line, anchor, first, frame.reading, frame.depth + 1, given))
        return self.open[-1]

    def close(self, sign: Sign, line: int) -> Optional[Frame]:
        """Closes the innermost frame of a kind that ends in a line, and all frames in it. Returns it if it is a call or a repeat."""
        while len(self.open) > 1:
            frame = self.open.pop()
            if frame.sign is sign and frame.line == line:
                return None if sign is Sign.INCLUDE else frame
        return None

    def call(self, mark: Mark, count: int) -> None:
        """Opens a call, or an instruction that a parameter represents."""
        line = self.line(mark)
        body = line.statement.body
        given: Dict[str, str] = {}
        if body and body[0].text in self.macros:
            self.calls += 1
            given = given_by(self.macros[body[0].text], arguments_of(line.text, body[1:]))
        self.push(Sign.CALL, mark, given, count, mark.line).number = self.calls

    def repeat(self, mark: Mark, count: int) -> None:
        """Opens a repeat. Its lines are listed below its .endrepeat."""
        heads = (it.statement.head for it in mark.source.lines[mark.line :])
        length = block_length(heads, words.REPEAT_BEGINS, words.REPEAT_ENDS)
        last = mark.line if length is None else mark.line + length + 1
        parts = parts_of(self.line(mark).statement.rest)
        self.push(Sign.REPEAT, mark, {parts[1][0].text: ""} if len(parts) > 1 and parts[1] else {}, count, last)

    def turn(self, mark: Mark, count: int) -> None:
        """Begins the next turn of a repeat."""
        while self.innermost.sign is not Sign.REPEAT and len(self.open) > 1:
            self.open.pop()
        frame = self.innermost
        frame.number += 1
        frame.given = dict.fromkeys(frame.given, str(frame.number))

    def include(self, mark: Mark, count: int) -> None:
        """Opens an included file."""
        frame = self.innermost
        word = word_of(self.line(mark).statement)
        source = None if word is None else self.closure.found(word, frame.reading.source)
        reading = FileReading(source or mark.source)
        anchor = mark.line if frame.sign is Sign.INCLUDE else frame.anchor
        frame.reading.below.setdefault(anchor, []).append(reading)
        self.open.append(Frame(Sign.INCLUDE, mark.source, mark.line, 0, count, reading, frame.depth))

    def defined(self, mark: Mark, count: int) -> None:
        """Notes the parameters of the macro that ends in a line."""
        first = mark.line - 1
        while first > 0 and mark.source.line(first).role is not Role.MACRO:
            first -= 1
        rest = mark.source.line(first).statement.rest if first else ()
        self.macros[rest[0].text if rest else ""] = tuple(it.text for it in rest[1:] if it.kind is Kind.NAME)

    def local(self, mark: Mark, count: int) -> None:
        """Gives the names of a .local the number of the innermost call."""
        frame = next((it for it in reversed(self.open) if it.sign is Sign.CALL), None)
        for it in self.line(mark).statement.rest:
            if frame is not None and it.kind is Kind.NAME:
                frame.given.setdefault(it.text, f"{it.text}?{frame.number}")
