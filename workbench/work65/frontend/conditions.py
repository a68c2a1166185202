"""Finds lines that conditions skip, as far as names and numbers decide it without an assembly."""
from typing import AbstractSet, List, Optional

from work65.frontend import words
from work65.frontend.statements import Statement
from work65.frontend.tokens import Kind, value_of


class Conditions:
    """The open conditions, and whether the lines of each are assembled (None if unknown)."""

    def __init__(self, names: AbstractSet[str]) -> None:
        self.names = names
        self.open: List[Optional[bool]] = []
        self.after: List[Optional[bool]] = []

    @property
    def is_dead(self) -> bool:
        """Returns whether the current line is certainly skipped."""
        return False in self.open

    def step(self, statement: Statement, parameters: AbstractSet[str]) -> None:
        """Follows a line."""
        head = statement.head
        if head in words.CONDITIONS:
            found = self._asked(statement, parameters)
            self.open.append(found)
            self.after.append(None if found is None else not found)
        elif head == ".else" and self.open:
            self.open[-1] = self.after[-1]
        elif head == ".elseif" and self.open:
            self.open[-1] = False if self.after[-1] is False else None
            self.after[-1] = self.open[-1]
        elif head == ".endif" and self.open:
            self.open.pop()
            self.after.pop()

    def _asked(self, statement: Statement, parameters: AbstractSet[str]) -> Optional[bool]:
        """Returns whether a condition holds, None if unknown."""
        head, rest = statement.head, statement.rest
        if head in (".ifdef", ".ifndef") and len(rest) == 1 and rest[0].kind is Kind.NAME:
            name = rest[0].text
            if name in self.names or name in parameters:
                return None
            return head == ".ifndef"
        if head == ".if" and len(rest) == 1 and rest[0].kind is Kind.NUMBER:
            value = value_of(rest[0].text)
            return None if value is None else value != 0
        return None
