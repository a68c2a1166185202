"""Cycles of the documented instructions of the NMOS 6502, and their sums in procedures."""
from typing import Dict, Iterator, List, Optional, Sequence, Tuple

from work65.inspecting.linked import Line

# By opcode, a row for each high digit. `4+` is 5 if the address with its index is in another page
# than without it, `2/3` is 2 if the branch isn't taken. A dot is no documented instruction.
ROWS = """
7   6  . . . 3 5 . 3 2  2 . .  4  6  .
2/3 5+ . . . 4 6 . 2 4+ . . .  4+ 7  .
6   6  . . 3 3 5 . 4 2  2 . 4  4  6  .
2/3 5+ . . . 4 6 . 2 4+ . . .  4+ 7  .
6   6  . . . 3 5 . 3 2  2 . 3  4  6  .
2/3 5+ . . . 4 6 . 2 4+ . . .  4+ 7  .
6   6  . . . 3 5 . 4 2  2 . 5  4  6  .
2/3 5+ . . . 4 6 . 2 4+ . . .  4+ 7  .
.   6  . . 3 3 3 . 2 .  2 . 4  4  4  .
2/3 6  . . 4 4 4 . 2 5  2 . .  5  .  .
2   6  2 . 3 3 3 . 2 2  2 . 4  4  4  .
2/3 5+ . . 4 4 4 . 2 4+ 2 . 4+ 4+ 4+ .
2   6  . . 3 3 5 . 2 2  2 . 4  4  6  .
2/3 5+ . . . 4 6 . 2 4+ . . .  4+ 7  .
2   6  . . 3 3 5 . 2 2  2 . 4  4  6  .
2/3 5+ . . . 4 6 . 2 4+ . . .  4+ 7  .
"""
TABLE = ROWS.split()
JUMP, JUMP_INDIRECT = 0x4C, 0x6C
RETURNS = ("rts", "rti", "brk")


def leaves_page(first: int, last: int) -> bool:
    """Returns whether two addresses are in different pages."""
    return first >> 8 != last >> 8


def is_indexed_read(line: Line) -> bool:
    """Returns whether an instruction takes a cycle more if its index leads to another page."""
    return line.is_instruction and TABLE[line.data[0]].endswith("+")


def cycles_of(line: Line) -> str:
    """Returns the cycles of a line after the link, empty for a line without an instruction. A
    branch whose target is in another page is `2/4`. A read from a base at the start of a page
    never takes a cycle more."""
    if not line.is_instruction or TABLE[line.data[0]] == ".":
        return ""
    said, operand = TABLE[line.data[0]], line.operand
    if operand is None:
        return said
    if line.is_branch:
        return "2/4" if leaves_page(line.following, operand) else said
    return said[:-1] if said.endswith("+") and line.size == 3 and operand & 0xFF == 0 else said


class Ways:
    """Sums the cycles of the ways from the start of a procedure to where they leave it."""

    def __init__(self, body: Sequence[Line]) -> None:
        self.lines = {line.address: line for line in body if line.size}
        self.start = body[0].address
        self.end = max(line.following for line in body)
        self.reached: Dict[int, List[Tuple[int, int]]] = {self.start: [(0, 0)]}
        self.ends: List[Tuple[int, int]] = []

    def sums(self) -> Optional[Tuple[int, int]]:
        """Returns the least and the greatest sum. None if a way goes back, or to no instruction."""
        for address in sorted(self.lines):
            known = self.reached.pop(address, [])
            if known and not self.add(self.lines[address], merged(known)):
                return None
        return None if self.reached or not self.ends else merged(self.ends)

    def add(self, line: Line, sums: Tuple[int, int]) -> bool:
        """Adds the ways from an instruction that is reached with these sums. Returns whether they
        are known."""
        if not cycles_of(line):
            return False
        for target, least, greatest in ways_from(line):
            sum_there = (sums[0] + least, sums[1] + greatest)
            if target is None or not self.start <= target < self.end:
                self.ends.append(sum_there)
            elif target <= line.address:
                return False
            else:
                self.reached.setdefault(target, []).append(sum_there)
        return True


def merged(sums: Sequence[Tuple[int, int]]) -> Tuple[int, int]:
    """Returns the least and the greatest of sums."""
    return min(least for least, _ in sums), max(greatest for _, greatest in sums)


def ways_from(line: Line) -> Iterator[Tuple[Optional[int], int, int]]:
    """Yields where the program continues after an instruction, None if that isn't known, with the
    least and the greatest number of cycles."""
    said = cycles_of(line)
    if line.is_branch:
        yield line.following, 2, 2
        yield line.operand, int(said[-1]), int(said[-1])
        return
    least = int(said[0])
    target = None if line.word in RETURNS or line.data[0] == JUMP_INDIRECT else line.following
    yield line.operand if line.data[0] == JUMP else target, least, least + said.endswith("+")


def sums_of(body: Sequence[Line]) -> Optional[Tuple[int, int]]:
    """Returns the least and the greatest sum of a procedure's cycles, without those of what it
    calls. None if it has a loop, or if a way leads to data."""
    return Ways(body).sums() if body else None
