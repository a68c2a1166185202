"""Branches and tables that cross a page, and the comments `; samepage` that forbid it."""
import re
from typing import Dict, Iterator, List, NamedTuple, Optional, Set, Tuple

from work65.frontend.tokens import line_of
from work65.inspecting.cycles import is_indexed_read, leaves_page
from work65.inspecting.linked import Label, Line, LinkedProgram, Spans

SAMEPAGE = re.compile(r";\s*samepage\b", re.I)
PAGE = 256
# The stores into the zero page by their opcodes, and what loads their registers.
STORES = {0x84: "ldy", 0x85: "lda", 0x86: "ldx"}


class Crossing(NamedTuple):
    """Two addresses that may be in different pages: of a branch the address after it and the
    target, of a table the base of the operand and the last byte that an index reaches, of a label
    its first and last byte."""

    line: Line
    what: str
    first: int
    last: int

    @property
    def moves(self) -> Optional[Tuple[int, int]]:
        """The bytes to move on or back so that both are in one page, None if they never are."""
        least, greatest = sorted((self.first, self.last))
        fits = greatest - least < PAGE
        return (PAGE - least % PAGE, greatest % PAGE + 1) if fits else None

    def as_values(self) -> Dict[str, object]:
        """Returns the crossing as plain values."""
        where = {"file": self.line.file, "line": self.line.number, "address": self.line.address}
        found = {"kind": self.what, "text": self.line.statement, "moves": self.moves}
        return {**where, **found, "first": self.first, "last": self.last}


class Crossings:
    """Finds what crosses a page in a program."""

    def __init__(self, program: LinkedProgram) -> None:
        self.program, self.spans = program, Spans(program)
        bodies = ((label.procedure, line) for label in program.labels for line in label.body)
        self.procedures = {line: procedure for procedure, line in bodies}
        self.pointed: Dict[Tuple[Optional[str], int], List[Label]] = {}
        self.add_pointed()

    def all(self) -> Iterator[Crossing]:
        """Yields all branches and tables that cross a page, in the order of the lines."""
        for line in self.program.lines:
            found = branch(line) if line.is_branch else self.tables(line)
            yield from (it for it in found if leaves_page(it.first, it.last))

    def tables(self, line: Line) -> List[Crossing]:
        """Returns the tables of an indexed read, as far as an index reaches from their base."""
        base = line.operand
        if not is_indexed_read(line) or base is None:
            return []
        if line.size == 2:
            own = self.pointed.get((self.procedures.get(line), base), [])
            found = [(label, label.address) for label in own or self.pointed.get((None, base), [])]
        else:
            found = [(label, base) for label in self.spans.named(line)[:1] if label.end > base]
        return [Crossing(line, "table", it, min(one.end, it + PAGE) - 1) for one, it in found]

    def add_pointed(self) -> None:
        """Adds the labels whose low byte is stored at an address of the zero page, in each .proc
        and, by None, anywhere: `#<` and the label is loaded, and the same register is stored before
        it is loaded again."""
        loaded: Dict[str, List[Label]] = {}
        for line in filter(lambda it: it.is_instruction, self.program.lines):
            if line.word in STORES.values():
                named = [label for labels in line.named for label in labels]
                is_low = re.match(r"\w+ # ?(<|\.lobyte)", line.statement, re.I) and len(named) == 1
                loaded[line.word] = named if is_low else []
            labels = loaded.get(STORES.get(line.data[0], ""), [])
            for procedure in {None, self.procedures.get(line)} if labels else ():
                known = self.pointed.setdefault((procedure, line.operand or 0), [])
                known += (label for label in labels if label not in known)

    def unknown(self) -> List[Line]:
        """Returns the reads through pointers whose tables aren't known."""
        reads = (it for it in self.program.lines if is_indexed_read(it) and it.size == 2)
        return [line for line in reads if not self.tables(line)]

    def wanted(self, line: Line) -> List[Crossing]:
        """Returns what a comment on a line asks to be in one page: a branch, the bytes of a label,
        or the tables of a read."""
        found = []
        for label in line.labels:
            end = max((it.following for it in label.body), default=label.end)
            found.append(Crossing(line, "label", label.address, max(end - 1, label.address)))
        return branch(line) or found or self.tables(line)

    def asserted(self) -> Iterator[Tuple[str, List[Crossing]]]:
        """Yields each line with such a comment, as FILE:LINE, and what the comment asks for."""
        found: Set[Tuple[str, int]] = set()
        for line in filter(lambda it: has_samepage(it.text), self.program.lines):
            found.add((line.file, line.number))
            yield line.place, self.wanted(line)
        for file, texts in self.program.texts.items():
            for number, text in enumerate(texts, 1):
                if has_samepage(text) and (file, number) not in found and not line_of(text).tokens:
                    yield f"{file}:{number}", []


def branch(line: Line) -> List[Crossing]:
    """Returns a branch with its target."""
    target = line.operand if line.is_branch else None
    return [] if target is None else [Crossing(line, "branch", line.following, target)]


def has_samepage(text: str) -> bool:
    """Returns whether the comment of a line begins with the word `samepage`."""
    return "samepage" in text.lower() and bool(SAMEPAGE.match(text, line_of(text).comment))
