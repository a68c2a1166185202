"""A program of cc65's, built by its own tools as it is and by bin65 from a copy within the profile; the images are compared."""
import os
from dataclasses import dataclass, field, replace
from typing import List, Optional, Sequence, Union

from work65.commands.check import said
from work65.frontend import words
from work65.frontend.files import read_bytes, text_of
from work65.frontend.link_script import OUTPUT
from work65.habits.habit import Finding
from work65.porting import script_files, signs
from work65.porting.difference import difference, differing
from work65.porting.measuring import FORMS, Measure, Pair
from work65.porting.port import PLACE, Ported, ported, read_project, script_lines
from work65.porting.project import Spread
from work65.porting.tools import Linked, Options, Refused
from work65.porting.verdict import Judge, whole_text
from work65.porting.verify import Library, Verifier, Whole, is_same
from work65.program import Program

SAME, OTHER, NOT_COMPARED = 0, 1, 2
# The difference between an absolute and a short opcode, and the maximum number of forms that are corrected by an image.
SHORT_TO_FAR, MOST = 8, 200
UNEXPLAINED = "not explained by MIGRATING"
# How long ca65 may take for a source of a project.
SECONDS = 120


@dataclass(frozen=True)
class SecondOptions:
    """The options of a line of second. `image` is compared with in place of the image that cc65's tools make."""

    script: str
    sources: List[str]
    libraries: List[Library]
    options: Options
    image: Optional[str] = None


@dataclass
class Answer:
    """The printed lines, and the status."""

    lines: List[str] = field(default_factory=list)
    status: int = SAME


class Comparison:
    """Compares one program."""

    def __init__(self, program: Program, line: SecondOptions, room: str, has_cc65: bool) -> None:
        self.line, self.has_cc65 = line, has_cc65
        self.script = script_files.with_output(text_of(line.script), line.image or "a.out")
        options = replace(line.options, seconds=SECONDS, is_fixed=True)
        paths = [*line.sources, *(it for library in line.libraries for it in library.members)]

        def port(spread: Spread) -> Ported:
            return ported(read_project(paths, options), spread, [self.script])

        self.verifier = Verifier(program, options, room, port)
        base = self.verifier.ported.project.base

        def keys(names: Sequence[str]) -> List[str]:
            return [os.path.relpath(os.path.abspath(it), base) for it in names]

        self.left: List[Finding] = []
        lines, _ = script_lines(self.verifier.ported.project, self.script, self.left)
        theirs, ours = whole_text(self.script.lines), whole_text(lines)
        libraries = [Library(it.name, keys(it.members)) for it in line.libraries]
        self.whole = Whole(line.script, theirs, ours, keys(line.sources), libraries)

    def answer(self) -> Answer:
        """Returns the report on the program."""
        self.verifier.put()
        try:
            cc65 = self.theirs()
        except Refused as why:
            return Answer([f"cc65's own tools refuse it: {why.lines[0]}", *why.lines[1:]], NOT_COMPARED)
        bin65 = self.ours()
        if self.has_cc65 and not (isinstance(bin65, Linked) and self.is_same(cc65, bin65)):
            self.verifier.settle(self.whole.modules())
            bin65 = self.ours()
        for _ in range(MOST):
            if self.has_cc65 or not isinstance(bin65, Linked) or not self.is_mended(cc65, bin65):
                break
            self.verifier.put()
            bin65 = self.ours()
        if isinstance(bin65, Refused):
            return Answer(self.refused(bin65), NOT_COMPARED)
        if self.is_same(cc65, bin65):
            return self.same(cc65, [])
        filled = self.verifier.filled(self.whole, cc65, bin65, self.is_same)
        if filled:
            said_of = f"has no bytes: bin65's file is filled up to it (MIGRATING: {PLACE.heading})"
            return self.same(cc65, [f"{self.line.script}: {it} {said_of}" for it in filled])
        differs = difference(cc65, bin65, self.verifier.finder(self.whole, bin65))
        causes = [*self.verifier.ported.findings, *self.left]
        if self.has_cc65:
            shown = f"{differs} "
            causes += [it for it in signs.found_in(self.verifier) if f" {it.path}:{it.line} " in shown]
        return Answer([differs, *(map(said, causes) if causes else [UNEXPLAINED])], OTHER)

    def same(self, cc65: Linked, notes: List[str]) -> Answer:
        """Returns the report on files that are the same. If the script writes none, no image was compared."""
        refused = [said(it) for it in self.left if it.habit is not PLACE]
        if refused:
            return Answer(refused, NOT_COMPARED)
        written = script_files.written_by(self.script)
        if not written:
            return Answer([f"{self.line.script}: no area is written to a file: there is no image to compare"], OTHER)
        files = cc65.files or {name: b"" for name in written}
        return Answer([f"the same image: {self.named(name)}, {len(data)} bytes" for name, data in files.items()] + notes)

    def is_mended(self, cc65: Linked, bin65: Linked) -> bool:
        """Returns whether the first instruction with another opcode took the other form, and has it
        now. Bytes of data and of operands may differ before it, since they are addresses."""
        finder, measure = self.verifier.finder(self.whole, bin65), Measure(self.verifier.ported)
        for name, at in differing(cc65, bin65):
            leaf, offset = finder.leaf(name, at) or (None, 0)
            if leaf is None or offset or measure.head(leaf.lines[-1]) not in words.MNEMONICS:
                continue
            theirs, ours = (side.files.get(name, b"")[at : at + 1] for side in (cc65, bin65))
            step = SHORT_TO_FAR if leaf.size == 2 else -SHORT_TO_FAR
            if leaf.size not in FORMS or not theirs or theirs[0] - ours[0] != step:
                return False
            return measure.put(leaf.lines[-1], Pair(leaf.size ^ 1, leaf))
        return False

    def theirs(self) -> Linked:
        """Returns the result of cc65's tools, or the given image instead."""
        return self.verifier.linked_by_cc65(self.whole) if self.line.image is None else self.given(self.line.image)

    def given(self, image: str) -> Linked:
        """Returns the image that was named, and beside it the files that the script names."""
        found = {}
        for name in script_files.written_by(self.script):
            place = image if name == OUTPUT else os.path.join(os.path.dirname(image), name)
            found[name] = read_bytes(place) if name == OUTPUT or os.path.exists(place) else b""
        return Linked({name: it for name, it in found.items() if it})

    def ours(self) -> Union[Linked, Refused]:
        """Returns what bin65 makes of the copy, or what it says."""
        try:
            return self.verifier.linked_by_bin65(self.whole)
        except Refused as why:
            return why

    def is_same(self, cc65: Linked, bin65: Linked) -> bool:
        """Returns whether both have the same files; beside cc65's own link also segments and exports."""
        return cc65.files == bin65.files if self.line.image is not None else is_same(cc65, bin65)

    def named(self, file: str) -> str:
        """Returns a file's name: the linker's output in it is called as the image is, or as ld65 calls it."""
        return file.replace(OUTPUT, self.line.image or "a.out")

    def refused(self, why: Refused) -> List[str]:
        """Returns the places that can't be converted; where none was seen, what bin65 says of the copy."""
        copy = self.verifier.ported
        found = [said(it) for it in [*copy.findings, *self.left]]
        if found:
            return found
        text = str(why)
        return [text if text.startswith(f"{self.line.script}:") else Judge(self.verifier).translated(text)]
