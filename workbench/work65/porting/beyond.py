"""Numbers that cc65's objects have no room for, in values that only the linker computes."""
from typing import Sequence

from work65.frontend.expression import Lookup, value
from work65.frontend.statements import Statement, parts_of
from work65.frontend.tokens import Kind, Token, value_of
from work65.habits.habit import Habit

HABIT = Habit("beyond", "", "Numbers of more than 32 bits", "")
NOTE = ("cc65's linker takes a number from $80000000 as one below 0:"
        " the result may depend on where the program is placed")
# The least number that ld65 takes otherwise than bin65.
LEAST = 1 << 31
SHIFTS = frozenset(("<<", ".shl"))


def word_in(statement: Statement, lookup: Lookup) -> str:
    """Returns the first word of an expression that only the linker computes and that has such a
    number; nothing where there is none."""
    is_after = statement.is_constant or any(it.text == "#" for it in statement.rest[:1])
    for part in parts_of(statement.rest[is_after:]):
        is_likely = any(_may_be(it, lookup) for it in part)
        if is_likely and value(part, lookup) is None and _has_beyond(part, lookup):
            return part[0].text
    return ""


def _may_be(it: Token, lookup: Lookup) -> bool:
    found = value_of(it.text) if it.kind is Kind.NUMBER else None
    found = lookup(it.text) if it.kind is Kind.NAME else found
    return it.lower in SHIFTS or found is not None and not -LEAST <= found < LEAST


def _has_beyond(part: Sequence[Token], lookup: Lookup) -> bool:
    """Returns whether tokens of an expression give such a number by themselves."""
    parts = (part[begin:end] for end in range(len(part) + 1) for begin in range(end))
    return any(not -LEAST <= (value(it, lookup) or 0) < LEAST for it in parts)
