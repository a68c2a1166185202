"""What nothing in a linked program refers to: exports, procedures, data, variables and members."""
from dataclasses import dataclass, field
from typing import Dict, Iterator, List, Optional, Sequence, Set, Tuple

from work65.frontend.reach import reached
from work65.inspecting.cycles import JUMP_INDIRECT
from work65.inspecting.linked import Label, Line, LinkedProgram, Spans
from work65.problem import Problem

ENDS = ("jmp", "rts", "rti")


@dataclass(eq=False)
class Piece:
    """The bytes from a label, or from the start of a module's part of a segment, to the next label.
    `referring` are the other pieces that refer to this one."""

    module: str
    segment: str
    start: int
    label: Optional[Label] = None
    lines: List[Line] = field(default_factory=list)
    referring: Set["Piece"] = field(default_factory=set)

    @property
    def size(self) -> int:
        """The number of bytes, without those of alignment."""
        return sum(line.size for line in self.lines if line.word != ".align")

    @property
    def has_code(self) -> bool:
        """Whether there is an instruction in it."""
        return any(line.is_instruction for line in self.lines)

    @property
    def begins_with_code(self) -> bool:
        """Whether its first byte is of an instruction."""
        return next((line.is_instruction for line in self.lines if line.size), False)


@dataclass
class Unreferred:
    """A procedure, label or variable that nothing refers to, or, if `is_indirect` is set, only what
    isn't referred to itself. `segments` are its bytes by segment."""

    name: str
    module: str
    kind: str
    size: int
    segments: Dict[str, int]
    is_indirect: bool


class References:
    """The pieces of a program, and the references between them. `entries` are the labels where it
    begins, the first instruction of each segment if there are none."""

    def __init__(self, program: LinkedProgram, entries: Sequence[str]) -> None:
        self.program, self.entries = program, entries
        self.pieces: List[Piece] = []
        self.by_label: Dict[Label, Piece] = {}
        self.groups: Dict[Tuple[str, str], List[Piece]] = {}
        self.segments: Dict[str, List[Piece]] = {}
        self.add_pieces()
        labels = {(label.module, label.name): piece for label, piece in self.by_label.items()}
        names = [(it.name, name) for it in program.modules for name in it.exports]
        self.exported = {name[1]: labels[name] for name in names if name in labels}
        self.refer()
        following: Dict[Piece, List[Piece]] = {}
        for piece in self.pieces:
            for referring in piece.referring - {piece}:
                following.setdefault(referring, []).append(piece)
        self.used = reached(self.roots(), lambda piece: following.get(piece, []))

    def add_pieces(self) -> None:
        """Divides the lines into pieces. The first label at an address begins one, and so does the
        line after an outermost .proc."""
        bodies = (it.body for it in self.program.labels if it.procedure == it.name)
        closing = {body[-1] for body in bodies if body}
        last: Dict[Tuple[str, str], Piece] = {}
        for line in self.program.lines:
            plain = next((label for label in line.labels if not label.is_cheap), None)
            piece = last.get((line.module, line.segment))
            if piece is None or plain and piece.start < line.address:
                piece = Piece(line.module, line.segment, line.address)
                last[line.module, line.segment] = piece
                self.pieces.append(piece)
            piece.lines.append(line)
            piece.label = piece.label or plain
            self.by_label.update(dict.fromkeys(line.labels, piece))
            if line in closing:
                del last[line.module, line.segment]
        for piece in sorted(self.pieces, key=lambda it: it.start):
            self.segments.setdefault(piece.segment, []).append(piece)
            if piece.label is not None:
                group = (piece.module, piece.label.procedure or piece.label.name)
                self.groups.setdefault(group, []).append(piece)

    def refer(self) -> None:
        """Adds the references: of each line, from a piece into the next one where a program runs
        on, and between the labels of a procedure without code, which is a table."""
        spans = Spans(self.program)
        for piece, line in ((piece, line) for piece in self.pieces for line in piece.lines):
            for label in spans.named(line):
                self.by_label[label].referring.add(piece)
        for pieces in self.segments.values():
            runs_on = False
            for piece, following in zip(pieces, pieces[1:]):
                words = [line.word for line in piece.lines if line.is_instruction]
                runs_on = words[-1] not in ENDS if words else runs_on
                following.referring.update([piece] if runs_on else [])
        for pieces in self.groups.values():
            if not any(piece.has_code for piece in pieces):
                for piece, following in zip(pieces, pieces[1:]):
                    following.referring.add(piece)

    def roots(self) -> Iterator[Piece]:
        """Yields what counts as referred to: bytes without a label, entries, exports that the
        script or an unknown input may import, and imports that no line of their module names."""
        yield from (piece for piece in self.pieces if piece.label is None)
        yield from map(self.entry, self.entries)
        if not self.entries:
            firsts = (pieces[0] for pieces in self.segments.values())
            yield from (piece for piece in firsts if piece.begins_with_code)
        needed = self.exported if self.program.unknown else self.program.needed
        yield from (self.exported[name] for name in needed if name in self.exported)
        for module in self.program.modules:
            for piece in (self.exported[it] for it in module.imports if it in self.exported):
                if module.name not in {referring.module for referring in piece.referring}:
                    yield piece

    def entry(self, name: str) -> Piece:
        """Returns the piece of a label by its full name."""
        for label, piece in self.by_label.items():
            if label.name == name:
                return piece
        raise Problem(f"--entry: the program has no label {name}")

    def unreferred(self) -> List[Unreferred]:
        """Returns what isn't referred to: whole procedures, and else single labels."""
        found = []
        for (_, name), pieces in self.groups.items():
            unused = [piece for piece in pieces if piece not in self.used]
            if len(unused) == len(pieces):
                found.append(self.row(name, pieces))
            else:
                found += [self.row(it.label.name, [it]) for it in unused if it.label]
        return sorted((row for row in found if row.size), key=lambda it: (it.is_indirect, -it.size))

    def row(self, name: str, pieces: List[Piece]) -> Unreferred:
        """Returns one or several pieces under a name."""
        segments: Dict[str, int] = {}
        for piece in pieces:
            segments[piece.segment] = segments.get(piece.segment, 0) + piece.size
        is_indirect = any(piece.referring - set(pieces) for piece in pieces)
        is_procedure = any(piece.label and piece.label.body for piece in pieces)
        is_variable = set(segments) <= set(self.program.variables)
        kind = "variable" if is_variable else "procedure" if is_procedure else "label"
        size = sum(segments.values())
        return Unreferred(name, pieces[0].module, kind, size, segments, is_indirect)

    def unimported(self) -> List[Tuple[str, str]]:
        """Returns the exports that nothing imports, with their modules."""
        modules, wanted = self.program.modules, set(self.program.needed)
        wanted.update(name for module in modules for name in module.imports)
        if self.program.unknown:
            return []
        names = ((name, module.name) for module in modules for name in module.exports)
        return [it for it in names if it[0] not in wanted]

    def members(self) -> List[Tuple[str, int]]:
        """Returns the library members that only such code needs, with their sizes."""
        sizes: Dict[str, int] = {}
        for piece in self.pieces:
            sizes[piece.module] = sizes.get(piece.module, 0) + piece.size
        used = {piece.module for piece in self.used}
        return [it for it in sizes.items() if it[0].endswith(")") and it[0] not in used]

    def unseen(self) -> Iterator[Line]:
        """Yields the jumps whose target a program computes: `jmp (x)`, and `rts` after `pha`."""
        before = ""
        for line in self.program.lines:
            is_indirect = line.is_instruction and line.data[0] == JUMP_INDIRECT
            if is_indirect or (before, line.word) == ("pha", "rts"):
                yield line
            before = line.word or before
