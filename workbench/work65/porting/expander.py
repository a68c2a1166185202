"""Expands calls and repeats, line by line, so that each line sees the changes of the lines before it."""
import re
from dataclasses import dataclass, field
from typing import Callable, Dict, List, Optional, Sequence

from work65.frontend import words
from work65.frontend.macros import arguments_of, given_by, substituted
from work65.frontend.statements import Statement, parts_of, statement_in
from work65.frontend.tokens import Kind, Token, line_of
from work65.porting.calls import Calls
from work65.porting.expansion import HARD, end_of_repeat
from work65.porting.line import Unportable
from work65.porting.logical import Logical
from work65.porting.renaming import Renaming

MOST_CALLS, DEEPEST = 4000, 600
MOST_TURNS = 1024
MOST_LINES, MOST_TEXT, LONGEST = 20000, 1000000, 4096


@dataclass
class ExpandedCondition:
    """An open condition: whether it was decided here, whether its lines count, and whether one of its parts did."""

    is_decided: bool
    is_live: bool
    is_done: bool


@dataclass
class ExpansionFrame:
    """The lines of a call or of a repeat that is expanded, and how far they were read."""

    lines: Sequence[str]
    given: Dict[str, str]
    counter: str = ""
    turns: int = 1
    is_repeat: bool = False
    at: int = 0
    turn: int = 0
    conditions: List[ExpandedCondition] = field(default_factory=list)

    @property
    def is_live(self) -> bool:
        """Returns whether the lines here count."""
        return all(it.is_live for it in self.conditions)

    @property
    def is_decided(self) -> bool:
        """Returns whether all open conditions were decided here."""
        return all(it.is_decided for it in self.conditions)


class Expander:
    """Writes one call or repeat out, with all that it calls."""

    def __init__(self, names: Renaming, calls: Calls, put: Callable[[str, Sequence[str]], None], unique: str) -> None:
        self.names, self.calling, self.put, self.macros = names, calls, put, names.context.macros
        self.has_escapes = names.state.has_escapes
        self.unique = re.sub(r"[^0-9A-Za-z]", "_", unique)
        self.calls = self.written = self.size = 0
        self.frames: List[ExpansionFrame] = []

    def call(self, text: str, statement: Statement) -> None:
        """Begins a call."""
        name = statement.body[0].text
        macro = self.macros[name]
        self.calls += 1
        values = arguments_of(text, statement.rest)
        if len(text) > LONGEST or len(values) > len(macro.parameters) or self.calls > MOST_CALLS or len(self.frames) > DEEPEST:
            raise Unportable(name, "macro-call", "it has too many arguments, or calls itself endlessly")
        if macro.is_ambiguous:
            raise Unportable(name, "macro-call", "its lines depend on a condition that can't be decided: write the call out")
        self.frames.append(ExpansionFrame(macro.lines, given_by(macro.parameters, values)))

    def repeat(self, lines: Sequence[str], text: str, given: Dict[str, str]) -> None:
        """Begins a repeat."""
        parts = parts_of(self.statement(text).rest)
        count = self.names.counted(text)
        if count is None or not 0 <= count <= MOST_TURNS:
            raise Unportable(".repeat", "match", "its count can't be determined: write the call out")
        counter = parts[1][0].text if len(parts) > 1 and parts[1] else ""
        if count > 0:
            self.frames.append(ExpansionFrame(lines, {**given, counter: "0"} if counter else dict(given), counter, count, True))

    def run(self) -> None:
        """Reads the lines of all frames, the innermost first."""
        while self.frames:
            frame = self.frames[-1]
            if frame.at < len(frame.lines):
                frame.at += 1
                self.line(frame, substituted(frame.lines[frame.at - 1], frame.given, self.has_escapes))
            elif frame.turn + 1 < frame.turns:
                frame.turn, frame.at = frame.turn + 1, 0
                if frame.counter:
                    frame.given[frame.counter] = str(frame.turn)
            else:
                self.frames.pop()

    def statement(self, text: str) -> Statement:
        """Returns a line's statement."""
        return statement_in(text, self.has_escapes)

    def line(self, frame: ExpansionFrame, text: str) -> None:
        """Reads a line."""
        self.size += len(text)
        if self.size > MOST_TEXT or len(text) > LONGEST:
            raise Unportable(text.strip()[:20], "macro-call", "it comes to too much")
        statement = self.statement(text)
        if self.names.context.macro is not None:
            self.emit(text)
        elif self.asks(frame, text, statement) or not frame.is_live:
            return
        elif statement.head == ".local":
            names = [it.text for it in statement.rest if it.text != ","]
            frame.given.update({it: f"{it}_{self.unique}_{self.calls}" for it in names})
        elif statement.head in words.MACRO_EXITS:
            self.leave()
        elif statement.head in words.REPEAT_BEGINS:
            self.nested_repeat(frame, text, statement)
        elif self.calling.is_written_out(statement):
            if statement.label is not None:
                self.emit(text[: statement.body[0].start].rstrip())
            prepared = self.names.prepared(text)
            self.call(prepared, self.statement(prepared))
        else:
            self.emit(text)

    def emit(self, text: str, following: Sequence[str] = ()) -> None:
        """Gives a line to the walk."""
        self.written += 1
        if self.written > MOST_LINES:
            raise Unportable(text.strip()[:20], "macro-call", "it comes to too much")
        self.put(text, following)

    def leave(self) -> None:
        """Ends the innermost call; a repeat that is open in it continues to its end, as in cc65."""
        for frame in reversed(self.frames):
            if not frame.is_decided:
                raise Unportable(".exitmacro", "macro-call", "whether it is reached can't be determined: write the call out")
            if not frame.is_repeat:
                frame.at = len(frame.lines)
                return

    def nested_repeat(self, frame: ExpansionFrame, text: str, statement: Statement) -> None:
        """Expands a repeat within a call, or leaves it as it is if its lines may stay. Its counter is replaced in arguments, too."""
        end = end_of_repeat([Logical(0, it) for it in frame.lines], frame.at)
        body = [substituted(it, frame.given, self.has_escapes) for it in frame.lines[frame.at : end]]
        frame.at = end + 1
        if any(self.has_to_go(it) for it in body):
            if statement.label is not None:
                self.emit(text[: statement.body[0].start].rstrip())
            self.repeat(body, text, {})
            return
        for it in (text, *body, ".endrepeat"):
            self.emit(it)

    def has_to_go(self, text: str) -> bool:
        """Returns whether a repeat with this line must be expanded."""
        statement = statement_in(text, self.has_escapes)
        tokens = line_of(text, self.has_escapes).tokens
        if statement.head in words.MACRO_EXITS | {".include"} or any(it.lower in HARD for it in tokens):
            return True
        return self.calling.is_written_out(statement)

    def asks(self, frame: ExpansionFrame, text: str, statement: Statement) -> bool:
        """Goes past the line of a condition; False where it is none."""
        head, conditions = statement.head, frame.conditions
        if head in words.CONDITIONS:
            if statement.label is not None and frame.is_live:
                self.emit(text[: statement.body[0].start].rstrip())
                text = text[statement.body[0].start :]
            known = self.answer(text, statement) if frame.is_live else False
            is_dead = not frame.is_live
            if known is None:
                self.emit(text, [substituted(it, frame.given, self.has_escapes) for it in frame.lines[frame.at :]])
            conditions.append(ExpandedCondition(known is not None, known is not False, is_dead or known is not False))
        elif head in (".elseif", ".else", ".endif") and conditions:
            self.goes_on(conditions, text, head)
        else:
            return False
        return True

    def goes_on(self, conditions: List[ExpandedCondition], text: str, head: str) -> None:
        """Goes past what follows a condition."""
        one = conditions[-1]
        if not one.is_decided:
            self.emit(text)
        elif head == ".elseif":
            known = None if one.is_done else self.names.decided(text)
            if known is None and not one.is_done:
                raise Unportable(".elseif", "match", "its condition can't be decided: write the call out")
            one.is_live = bool(known) and not one.is_done
            one.is_done = one.is_done or one.is_live
        elif head == ".else":
            one.is_live, one.is_done = not one.is_done, True
        if head == ".endif":
            conditions.pop()

    def answer(self, text: str, statement: Statement) -> Optional[bool]:
        """Returns whether a condition holds, None if that is unknown."""
        if statement.head in (".ifblank", ".ifnblank"):
            return _is_blank(statement.rest) == (statement.head == ".ifblank")
        return self.names.decided(text)


def _is_blank(tokens: Sequence[Token]) -> bool:
    """Returns whether there are no tokens but braces."""
    return all(it.kind is Kind.SIGN and it.text in "{}" for it in tokens)
