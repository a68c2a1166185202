"""Search for all errors of a source: runs bin65 on a copy, each time without the lines that it rejected before."""
import argparse
import os
import re
from dataclasses import dataclass, field, replace
from typing import Dict, List, Optional, Set, Tuple

from work65.diagnosing import recovery
from work65.diagnosing.message import Message, message_of
from work65.diagnosing.suspects import LineChecker, Suspect, suspects_in
from work65.frontend import words
from work65.frontend.files import text_of
from work65.frontend.includes import followed
from work65.frontend.linked_tree import LinkedTree
from work65.frontend.statements import statement_in
from work65.frontend.survey import Survey, surveyed
from work65.frontend.tokens import Kind, line_of
from work65.problem import Problem
from work65.program import Program, Ran
from work65.progress import Progress

MOST = 1000
# The number of errors after which lines are collected that bin65 rejects in any context.
FEW = 4
# Errors that bin65 reports in skipped lines, too.
LEXICAL = ("bad character", "bad number", "string not closed", "line too long", "name too long")
UNCLOSED = ("block not closed", "scope not open or not closed")
FOLLOWING = (
    "statement not understood", "directive not understood", "not constant", "operand not constant or out of range", "undefined name",
)
# Errors that may follow from a later line of the same file.
ANYWHERE = ("undefined name", "export not defined")
Place = Tuple[str, int]


@dataclass
class Fault:
    """A message, and the text of its line before it was removed."""

    message: Message
    line: str = ""


@dataclass
class Search:
    """The copy and the errors found so far. `steps` counts how often a part of a line was removed."""

    program: Program
    linked: LinkedTree
    arguments: argparse.Namespace
    folder: str
    lines: Dict[str, List[str]] = field(default_factory=dict)
    steps: Dict[Place, int] = field(default_factory=dict)
    names: Dict[str, Set[Place]] = field(default_factory=dict)
    faults: List[Fault] = field(default_factory=list)
    suspects: Dict[str, Suspect] = field(default_factory=dict)
    tree: Optional[Survey] = None
    left: Optional[Set[str]] = None
    has_more: bool = False
    was_looked: bool = False

    def all(self) -> List[str]:
        """Returns all errors, sorted by file and line."""
        progress = Progress("faults", MOST)
        while len(self.faults) < MOST:
            ran = self.run()
            message = self.message_of(ran)
            if message is None or not self.take(message):
                self.judged(ran, progress)
                if message is None and self.restored():
                    continue
                break
            progress.step()
            if len(self.faults) == FEW and not self.was_looked:
                self.look()
        else:
            self.has_more = self.message_of(self.run()) is not None or bool(self.suspects)
        progress.end()
        files = list(dict.fromkeys([self.arguments.source, *(it.message.file for it in self.faults)]))
        keys = {file: number for number, file in enumerate(files)}
        self.faults.sort(key=lambda it: (keys[it.message.file], it.message.line or 0, it.message.text))
        return [self.said(it) for it in self.faults]

    def run(self) -> Ran:
        """Runs bin65 on the copy."""
        words = ["ca65", "-o", ""]
        words += [f"-I{self.linked.inside(it)}" for it in self.arguments.include]
        words += [f"-D{it}" for it in self.arguments.define]
        return self.program.run([*words, "--", self.linked.inside(self.arguments.source)], self.linked.here)

    def message_of(self, ran: Ran) -> Optional[Message]:
        """Returns the error that ended a run, None if it succeeded."""
        if ran.status == 0:
            return None
        said = os.fsdecode(ran.err).rstrip("\n").split("\n")[-1]
        message = message_of(said.replace(self.linked.root + "/", "/"))
        if message is None:
            raise Problem(f"bin65 said: {said}")
        return message

    def take(self, message: Message) -> bool:
        """Records an error and removes its line from the copy. Returns False if the search can't continue."""
        if message.line is None:
            self.faults.append(Fault(message))
            return False
        lines = self.lines_of(message.file)
        at = message.line - 1
        if message.text in UNCLOSED and at == len(lines) - 1 and self.closed(self.as_it_was(message), lines):
            return True
        place = (message.file, at)
        if at >= len(lines) or self.steps.get(place, 0) > 1:
            self.faults.append(Fault(message))
            return False
        self.faults.append(Fault(message, lines[at]))
        if not self.without_definition(message, lines, at):
            self.leave_out(message, lines, at)
        return self.write(message.file)

    def without_definition(self, message: Message, lines: List[str], at: int) -> bool:
        """Removes only the second definition of a name. Returns False if the message isn't about one."""
        if not message.text.startswith(recovery.TWICE):
            return False
        kept = recovery.without_definition(lines[at], message.name, f"w65_again_{len(self.faults)}")
        if kept == lines[at]:
            return False
        lines[at] = kept
        return True

    def leave_out(self, message: Message, lines: List[str], at: int) -> None:
        """Removes a line or a block: first all but its label, the second time the label, too."""
        first, last = recovery.span_of(lines, at, message.text)
        for name in recovery.names_of(lines, first, last) | self.names_of_call(lines[first]):
            self.names.setdefault(name, set()).add((message.file, first + 1))
        for it in range(first, last + 1):
            times = self.steps.get((message.file, it), 0)
            lines[it] = recovery.left(lines[it]) if first == last and not times else ""
            self.steps[(message.file, it)] = times + 1

    def names_of_call(self, line: str) -> Set[str]:
        """Returns the names that a macro call would have defined: its arguments, and names that the macro's lines define."""
        statement = statement_in(line)
        if not statement.body or statement.body[0].kind is not Kind.NAME or statement.body[0].lower in words.MNEMONICS:
            return set()
        if self.tree is None:
            first = text_of(self.arguments.source)
            self.tree = surveyed([first, *followed([first], self.arguments.include)], self.arguments.include)
        places = self.tree.macros.get(statement.body[0].text)
        if places is None:
            return set()
        found = {it.text for it in statement.rest if it.kind is Kind.NAME}
        for path, number in places:
            body = text_of(path).lines
            found |= recovery.names_of(body, *recovery.span_of(body, number - 1))
        return found

    def as_it_was(self, message: Message) -> Message:
        """Returns a message about the last line with that line's number in the user's file."""
        last = len(text_of(message.file).lines)
        if message.line is None or message.line <= last:
            return message
        return replace(message, line=last, whole=message.whole.replace(f":{message.line}: ", f":{last}: ", 1))

    def lines_of(self, file: str) -> List[str]:
        """Returns the current lines of a file of the copy."""
        if file not in self.lines:
            self.lines[file] = text_of(file).lines
        return self.lines[file]

    def write(self, file: str) -> bool:
        """Writes a file of the copy. Returns False if that fails."""
        try:
            self.linked.put(file, "\n".join(self.lines[file]) + "\n")
        except OSError:
            return False
        return True

    def closed(self, message: Message, lines: List[str]) -> bool:
        """Closes the blocks that are open at the end of a file, and records the error. Returns False if none is open."""
        closers = recovery.closers_of(lines, message.text.startswith("scope"))
        if not closers:
            return False
        lines += closers
        self.faults.append(Fault(message))
        return self.write(message.file)

    # Many at once.

    def look(self) -> None:
        """Finds lines that bin65 rejects in any context, and replaces each by an .out: a run prints those that it assembles."""
        self.was_looked = True
        found = suspects_in(self.arguments.source, self.arguments.include, self.arguments.define, self.lines_of)
        judge = LineChecker(self.program, self.folder)
        for file in dict.fromkeys(it.file for it in found):
            lines = self.lines_of(file)
            of_file = [it for it in found if it.file == file]
            marked: Set[int] = set()
            for it, said in zip(of_file, judge.said_of(of_file)):
                if said is not None and it.at not in marked:
                    marked.add(it.at)
                    mark = f"w65 {len(self.suspects)} w65"
                    self.suspects[mark] = replace(it, said=said)
                    lines[it.at] = f'{recovery.left(lines[it.at])} .out "{mark}"'
            self.write(file)

    def judged(self, ran: Ran, progress: Progress) -> None:
        """Records the errors of the lines whose .out the last run printed."""
        for mark in re.findall(r"^w65 \d+ w65$", ran.out.decode("latin-1"), re.M):
            it = self.suspects.pop(mark, None)
            if it is None:
                continue
            if len(self.faults) == MOST:
                self.has_more = True
                break
            whole = f"{it.file}:{it.at + 1}: Error: {it.said}"
            self.faults.append(Fault(Message(whole, it.file, it.at + 1, True, it.said), it.line))
            for name in recovery.names_of([it.line], 0, 0):
                self.names.setdefault(name, set()).add((it.file, it.at + 1))
            progress.step()

    def restored(self) -> bool:
        """Puts back lines that weren't assembled but whose tokens bin65 checks all the same. Returns False if there are none."""
        left = [(mark, it) for mark, it in self.suspects.items() if it.said in LEXICAL]
        for mark, it in left:
            del self.suspects[mark]
            self.lines_of(it.file)[it.at] = it.line
        for file in {it.file for _, it in left}:
            self.write(file)
        return bool(left)

    # Errors that follow from others.

    def defined(self) -> Set[str]:
        """Returns the names that the copy still defines: no error follows from a lack of them."""
        if self.left is None:
            first = text_of(self.arguments.source)
            files = [first, *followed([first], self.arguments.include)]
            lines = {line for file in files for line in self.lines_of(file.path)}
            self.left = set().union(*(recovery.defined_by(statement_in(it)) for it in lines))
        return self.left

    def said(self, fault: Fault) -> str:
        """Formats an error for output."""
        cause = self.cause(fault)
        return fault.message.whole + (f" (follows from {cause})" if cause else "")

    def cause(self, fault: Fault) -> str:
        """Returns the location of a removed line that would have defined a name that the error is about; empty if there is none."""
        message = fault.message
        wanted: Set[str] = set(message.name.replace("::", " ").split())
        kind = message.text.split(":")[0]
        if kind in FOLLOWING and kind != "undefined name":
            wanted |= {it.text for it in line_of(fault.line).tokens if it.kind in (Kind.NAME, Kind.CHEAP)}
            wanted -= recovery.defined_by(statement_in(fault.line)) | self.defined()
        if kind.endswith(" twice"):
            return ""
        line = message.line or 0
        places = {place for name in wanted for place in self.names.get(name, ()) if place != (message.file, line)}
        if kind not in ANYWHERE:
            places = {it for it in places if it[0] != message.file or it[1] < line}
        first = min(places, key=lambda it: (it[0] != message.file, it), default=None)
        return "" if first is None else f"{first[0]}:{first[1]}"
