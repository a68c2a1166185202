"""Calls, jumps and tables of one bank that name a label of another bank of the same window."""
from typing import Dict, Iterator, NamedTuple, Set, Tuple

from work65.frontend.words import DATA
from work65.inspecting.linked import Label, Line, LinkedProgram, WindowArea


class OtherBank(NamedTuple):
    """A line in one bank that names a label in another."""

    line: Line
    label: Label
    own: WindowArea
    other: WindowArea

    def as_values(self) -> Dict[str, object]:
        """Returns the finding as plain values."""
        line, label = self.line, self.label
        where = {"file": line.file, "line": line.number, "text": line.statement}
        named = {"label": label.name, "address": label.address, "label_module": label.module}
        return {**where, "bank": self.own.bank, **named, "label_bank": self.other.bank}


def has_banks(program: LinkedProgram) -> bool:
    """Returns whether two areas of a script are banks of one window."""
    areas = set(program.areas.values())
    return any(one.is_other_bank(other) for one in areas for other in areas)


def targets(line: Line) -> Iterator[Label]:
    """Yields the labels that a line calls, jumps to, or has in a table. An element with two labels,
    such as a difference, is no address."""
    if line.word in ("jsr", "jmp") or line.word in DATA:
        yield from (labels[0] for labels in line.named if len(labels) == 1)


def other_banks(program: LinkedProgram) -> Iterator[OtherBank]:
    """Yields the lines that name a label that only another bank of their window holds: their own
    bank has no label of this name at this address."""
    held: Set[Tuple[object, str, int]] = set()
    for label in program.labels:
        name = label.name.split("::")[-1]
        held.add((program.areas[label.segment].bank, name, label.address))
    for line in program.lines:
        own = program.areas[line.segment]
        for label in targets(line):
            other, name = program.areas[label.segment], label.name.split("::")[-1]
            if own.is_other_bank(other) and (own.bank, name, label.address) not in held:
                yield OtherBank(line, label, own, other)
