"""A linked program: its lines with final addresses and bytes, its labels, modules and areas.

`from_build` makes one from a build of bin65, `from_debug` from a debug file. Nothing here depends
on where the lines come from."""
import re
from bisect import bisect_right
from dataclasses import dataclass, field
from typing import Dict, List, Mapping, Optional, Sequence, Tuple

from work65.frontend.statements import statement_of
from work65.frontend.tokens import line_of
from work65.frontend.words import BRANCHES, MNEMONICS

IMMEDIATE = bytes.fromhex("09 29 49 69 A0 A2 A9 C0 C9 E0 E9")


@dataclass(eq=False)
class Label:
    """A label: its full name, its address, and the address after its last byte, which is that of
    the next label of its segment or the end of its module's part. `body` are the lines of a .proc,
    `procedure` is the full name of the outermost .proc around the label or of its own."""

    name: str
    module: str
    segment: str
    address: int
    is_cheap: bool = False
    procedure: str = ""
    body: List["Line"] = field(default_factory=list)
    end: int = 0


@dataclass(eq=False)
class Line:
    """A line that emits something or has a label: `data` are its bytes in the image, empty if it is
    in no file. `named` are the labels that each element of its operand or list names."""

    file: str
    number: int
    depth: int
    text: str
    word: str
    module: str
    segment: str
    address: int
    size: int
    data: bytes
    labels: List[Label] = field(default_factory=list)
    named: List[List[Label]] = field(default_factory=list)

    @property
    def place(self) -> str:
        """The file and the number."""
        return f"{self.file}:{self.number}"

    @property
    def following(self) -> int:
        """The address after its last byte."""
        return self.address + self.size

    @property
    def is_instruction(self) -> bool:
        """Whether the line is an instruction whose bytes are known."""
        return self.word in MNEMONICS and len(self.data) == self.size > 0

    @property
    def is_branch(self) -> bool:
        """Whether the line is a conditional branch."""
        return self.word in BRANCHES and self.is_instruction

    @property
    def operand(self) -> Optional[int]:
        """The address in the operand of an instruction, None if there is none."""
        if not self.is_instruction or self.size < 2 or self.data[0] in IMMEDIATE:
            return None
        if self.is_branch:
            return (self.following + self.data[1] - (self.data[1] & 0x80) * 2) & 0xFFFF
        return int.from_bytes(self.data[1:], "little")

    @property
    def statement(self) -> str:
        """The text without the label and the comment, and with single blanks."""
        body = statement_of(line_of(self.text, is_expanded=True).tokens, None).body
        return shown(re.sub(r"\s+", " ", self.text[body[0].start : body[-1].end])) if body else ""


def add_ends(labels: Sequence[Label], ends: Mapping[str, int]) -> None:
    """Adds to each label of a module the address after its last byte. A cheap label ends no other
    label. `ends` are the ends of the module's parts by their segments."""
    starts: Dict[Tuple[str, bool], List[int]] = {}
    for label in labels:
        for is_cheap in {True, label.is_cheap}:
            starts.setdefault((label.segment, is_cheap), []).append(label.address)
    for others in starts.values():
        others.sort()
    for label in labels:
        others = starts[label.segment, label.is_cheap]
        later = others[bisect_right(others, label.address) :][:1]
        label.end = later[0] if later else ends[label.segment]


@dataclass
class LinkedModule:
    """A module: the names that it exports, and those that it imports and uses."""

    name: str
    exports: List[str]
    imports: List[str]


@dataclass(frozen=True)
class WindowArea:
    """An area in which segments run: its addresses, and its bank if it has one."""

    name: str
    start: int
    size: int
    bank: Optional[int]

    def is_other_bank(self, other: "WindowArea") -> bool:
        """Returns whether another area is another bank at one of the same addresses."""
        if self.bank is None or other.bank is None or self.bank == other.bank:
            return False
        return max(self.start, other.start) < min(self.start + self.size, other.start + other.size)


@dataclass
class LinkedProgram:
    """All of a program. `areas` are those in which segments run, by segment, `variables` the
    segments without bytes in a file. `needed` are the names that the script imports, `unknown` the
    inputs whose lines aren't known. `texts` are the lines of all files."""

    lines: List[Line] = field(default_factory=list)
    labels: List[Label] = field(default_factory=list)
    modules: List[LinkedModule] = field(default_factory=list)
    areas: Dict[str, WindowArea] = field(default_factory=dict)
    variables: List[str] = field(default_factory=list)
    needed: List[str] = field(default_factory=list)
    unknown: List[str] = field(default_factory=list)
    texts: Dict[str, List[str]] = field(default_factory=dict)


class Spans:
    """Finds the label at an address of a segment. Cheap labels belong to the label before them."""

    def __init__(self, program: LinkedProgram) -> None:
        self.found: Dict[str, List[Tuple[int, Label]]] = {}
        for label in program.labels:
            if not label.is_cheap and label.end > label.address:
                self.found.setdefault(label.segment, []).append((label.address, label))
        for spans in self.found.values():
            spans.sort(key=lambda span: span[0])
        self.starts = {name: [span[0] for span in spans] for name, spans in self.found.items()}

    def at(self, segment: str, address: int) -> List[Label]:
        """Returns the label whose bytes include an address."""
        number = bisect_right(self.starts.get(segment, []), address)
        found = self.found[segment][number - 1 : number] if number else []
        return [label for _, label in found if address < label.end]

    def named(self, line: Line) -> List[Label]:
        """Returns the labels that a line names, or else those at the address of its operand."""
        found = [label for labels in line.named for label in labels]
        if found or line.operand is None:
            return found
        segments = [line.segment] if line.is_branch else self.found
        return [label for segment in segments for label in self.at(segment, line.operand)]


def shown(text: str) -> str:
    """Returns a text of bytes as the text that they encode."""
    return text.encode("latin-1").decode("utf-8", "surrogateescape")
