"""The report of a comparison: whether the program or each source alone is the same, what differs, and what wasn't compared."""
import os
from dataclasses import dataclass, field
from typing import List, Sequence

from work65.diagnosing.message import message_of
from work65.frontend.link_script import OUTPUT
from work65.porting import copying, script_files, signs
from work65.porting.difference import Finder, LinkedModule, difference
from work65.porting.leaves import Line
from work65.porting.port import Ported
from work65.porting.tools import Options, Refused
from work65.porting.verify import Outcome, Port, Verifier, Whole, is_same
from work65.program import Program

# The most sources that are named of those that weren't compared.
SHOWN = 3


@dataclass
class Verdict:
    """The copy, its files as they were compared, what differs or is refused, and what was compared."""

    ported: Ported
    files: copying.Files
    lines: List[str] = field(default_factory=list)
    last: str = ""


@dataclass
class ScriptLink:
    """A link of all sources by one script: the files that are the same, or where they differ, or why ld65 rejects it."""

    script: str
    files: str = ""
    where: str = ""
    refusal: str = ""
    debug: str = ""

    @property
    def said(self) -> str:
        """Returns what was compared, or why nothing was."""
        return f"by {self.script}: the same ({self.files})" if self.files else f"not by {self.script}: {self.refusal}"


def compared(program: Program, options: Options, room: str, port: Port, folder: str) -> Verdict:
    """Compares the copy as it lies in its folder: the program by each script of the tree with which
    cc65 links it, and if there is none, each source alone."""
    verifier = Verifier(program, options, room, port, folder)
    verifier.put()
    judge = Judge(verifier)
    lines: List[str] = []
    is_same = judge.is_same_program()
    if not is_same:
        verifier.settle(verifier.modules)
        lines, last = judge.said_of_sources()
        is_same = judge.is_same_program()
    if is_same:
        last = judge.said_of_program()
    else:
        lines = lines or [it.where for it in judge.links if it.where]
        verifier.ported.say([*verifier.ported.project.beyond, *signs.found_in(verifier)])
    debugs = [*(it.debug for it in judge.links), *(it.debug for it in verifier.outcomes.values())]
    last += said_of_lines(verifier.ported, verifier.unmeasured(debugs))
    return Verdict(verifier.ported, verifier.files, lines, last)


def said_of_lines(ported: Ported, lines: Sequence[Line]) -> str:
    """Returns what is said of lines whose operand's size wasn't measured."""
    if not lines:
        return ""
    more = f" and {len(lines) - 1} more lines" if len(lines) > 1 else ""
    place = f"{ported.project.texts[lines[0].path].path}:{lines[0].number}"
    return f"; not assembled here, so of unknown size: {place}{more}"


class Judge:
    """Reports the result of a comparison."""

    def __init__(self, verifier: Verifier) -> None:
        self.verifier = verifier
        self.links = [ScriptLink(it) for it in verifier.ported.project.scripts]

    @property
    def is_linked(self) -> bool:
        """Returns whether cc65 links the program by one of the scripts."""
        return any(not it.refusal for it in self.links)

    # The program.

    def whole(self, script: str) -> Whole:
        """Returns the program of all sources of the tree, by one of its scripts."""
        ported = self.verifier.ported
        texts = [whole_text(ported.project.scripts[script].lines), whole_text(ported.texts[script].lines)]
        return Whole(script, texts[0], texts[1], self.verifier.modules)

    def is_same_program(self) -> bool:
        """Links by each script with which cc65 does. Returns whether it does with one, and all that it makes is the same."""
        self.links = [it if it.refusal else self.linked(it.script) for it in self.links]
        return self.is_linked and all(it.refusal or it.files for it in self.links)

    def linked(self, script: str) -> ScriptLink:
        """Links the program by a script with both tools."""
        found = ScriptLink(script)
        written = script_files.written_by(self.verifier.ported.project.scripts[script])
        if not written:
            found.refusal = f"no area of {script} is written to a file: the whole program wasn't compared"
            return found
        whole = self.whole(script)
        try:
            cc65 = self.verifier.linked_by_cc65(whole)
        except Refused as said:
            found.refusal = f"ld65 doesn't link it as a whole: {said}"
            return found
        try:
            bin65 = self.verifier.linked_by_bin65(whole)
        except Refused as said:
            path = self.verifier.ported.project.scripts[script].path
            is_said = any(it.path == path for it in self.verifier.ported.findings)
            found.where = "" if is_said else f"{script}: bin65 refuses the program: {said}"
            return found
        found.debug = cc65.debug
        files = cc65.files or {name: b"" for name in written}
        shown = ", ".join(f"{'the image' if name == OUTPUT else name}, {len(data)} bytes" for name, data in files.items())
        if is_same(cc65, bin65):
            found.files = shown
        elif filled_up := self.verifier.filled(whole, cc65, bin65, is_same):
            found.files = f"{shown}; without the fill up to {', '.join(filled_up)}"
        else:
            found.where = f"{script}: {difference(cc65, bin65, self.verifier.finder(whole, bin65))}"
        return found

    def said_of_program(self) -> str:
        """Returns the last line, if the program is the same."""
        return f"compared: the program {'; '.join(it.said for it in self.links)}"

    # Sources alone.

    def said_of_sources(self) -> "tuple[List[str], str]":
        """Returns what differs or is refused, and the last line."""
        lines: List[str] = []
        same = 0
        others: List[str] = []
        for module in self.verifier.modules:
            it = self.verifier.outcomes[module]
            said = self.said(module, it)
            lines += [said] if said else []
            same += it.is_compared and it.is_same
            others += [] if it.is_compared else [self.verifier.ported.project.texts[module].path]
        if not self.verifier.modules:
            return [], "not compared: there are no sources"
        parts = [f"compared: each source alone at two placements: the same {same} of {len(self.verifier.modules)}"]
        more = f" and {len(others) - SHOWN} more" if len(others) > SHOWN else ""
        parts += [f"not compared: {', '.join(others[:SHOWN])}{more}"] if others else []
        if len(self.links) == 1:
            parts += [self.links[0].refusal] if self.links[0].refusal else []
        elif self.links and not self.is_linked:
            parts.append(f"the whole program wasn't compared: there are {len(self.links)} scripts, and ld65 links it by none of them")
        return lines, "; ".join(parts)

    def said(self, module: str, it: Outcome) -> str:
        """Returns the report on a source; nothing if it is the same, or was reported already."""
        ported = self.verifier.ported
        path = ported.project.texts[module].path
        if it.theirs:
            return f"{path}: ca65 refuses it: {it.theirs}"
        if it.ours:
            return self.refused(module, it.ours)
        if it.refusal:
            return f"{path}: {it.refusal}"
        if it.sides is None:
            return ""
        script, cc65, bin65 = it.sides
        leaves = self.verifier.leaves(module) or []
        return f"{path}: {difference(cc65, bin65, Finder(ported, script, bin65, {'ours.o': LinkedModule(module, leaves)}))}"

    def refused(self, module: str, said: str) -> str:
        """Returns what bin65 says of a copy, by the line of the original; nothing where a place of the source was said."""
        ported = self.verifier.ported
        files = {ported.project.texts[it].path for it in ported.project.closure(module)}
        if any(it.path in files for it in ported.findings):
            return ""
        return self.translated(said, ported.project.texts[module].path)

    def translated(self, said: str, path: str = "") -> str:
        """Returns what bin65 says of a file of the copy, by the line of the original."""
        message = message_of(said)
        if message is None or message.line is None:
            return f"{path or 'the copy'}: bin65 refuses what it became: {said}"
        place = self.verifier.ported.place(os.path.normpath(message.file), message.line)
        return f"{place}: bin65 refuses what this became: {message.text}"


def whole_text(lines: List[str]) -> str:
    """Returns the text of a script."""
    return "\n".join(lines) + "\n"
