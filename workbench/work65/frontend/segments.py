"""Tracks the open segment, and whether it is a zero page one."""
from typing import AbstractSet, Iterator, List, Set

from work65.frontend import words
from work65.frontend.statements import Statement, parts_of
from work65.frontend.tokens import Kind

NAMES = {it: it[1:].upper() for it in words.SEGMENT_WORDS}
ZERO_PAGE_SIZES = frozenset(("zeropage", "zp", "direct"))
LISTS = frozenset((".import", ".global", ".forceimport"))
HEADS = words.SEGMENT_WORDS | {".segment", ".pushseg", ".popseg"}


class Segments:
    """The open segment, the saved ones, and the names of zero page segments."""

    def __init__(self) -> None:
        self.current = "CODE"
        self.saved: List[str] = []
        self.zero_page: Set[str] = {"ZEROPAGE"}

    @property
    def is_zero_page(self) -> bool:
        """Returns whether the open segment is a zero page one."""
        return self.current in self.zero_page

    def step(self, statement: Statement) -> None:
        """Processes a line."""
        head, rest = statement.head, statement.rest
        if head in NAMES:
            self.current = NAMES[head]
        elif head == ".segment" and rest and rest[0].kind is Kind.STRING:
            self.current = rest[0].text.strip('"')
            if len(rest) > 2 and rest[2].lower in ZERO_PAGE_SIZES:
                self.zero_page.add(self.current)
        elif head == ".pushseg":
            self.saved.append(self.current)
        elif head == ".popseg" and self.saved:
            self.current = self.saved.pop()


def short_names(statement: Statement, own: AbstractSet[str]) -> Iterator[str]:
    """Yields the names that cc65 imports as zero page addresses if the line is in a zero page segment: those without a size. A
    `.global` of a name that the file defines is no import."""
    if statement.head not in LISTS:
        return
    for part in parts_of(statement.rest):
        if len(part) == 1 and part[0].kind is Kind.NAME and not (statement.head != ".import" and part[0].text in own):
            yield part[0].text
