"""Roles of statements: what an instrumented copy has to know of each line."""
from enum import IntEnum, auto

from work65.frontend import words
from work65.frontend.statements import Statement
from work65.frontend.tokens import Kind


class Role(IntEnum):
    """The role of a statement."""

    NOTHING = auto()
    CONSTANT = auto()
    INSTRUCTION = auto()
    DATA = auto()
    INCBIN = auto()
    CALL = auto()
    MACRO = auto()
    END_MACRO = auto()
    EXIT_MACRO = auto()
    LOCAL = auto()
    REPEAT = auto()
    END_REPEAT = auto()
    CONDITION = auto()
    INCLUDE = auto()
    SCOPE = auto()
    PROC = auto()
    END_SCOPE = auto()
    END = auto()
    OTHER = auto()


ROLES = {
    **dict.fromkeys(words.STORAGE, Role.DATA),
    **dict.fromkeys((*words.TAKEN_CONDITIONS, ".elseif", ".else", ".endif"), Role.CONDITION),
    **dict.fromkeys(words.MACRO_BEGINS, Role.MACRO),
    **dict.fromkeys(words.MACRO_ENDS, Role.END_MACRO),
    **dict.fromkeys(words.MACRO_EXITS, Role.EXIT_MACRO),
    **dict.fromkeys(words.REPEAT_BEGINS, Role.REPEAT),
    **dict.fromkeys(words.REPEAT_ENDS, Role.END_REPEAT),
    **dict.fromkeys(words.SCOPE_ENDS, Role.END_SCOPE),
    ".incbin": Role.INCBIN,
    ".include": Role.INCLUDE,
    ".local": Role.LOCAL,
    ".scope": Role.SCOPE,
    ".proc": Role.PROC,
    ".end": Role.END,
}
# The roles of lines whose address is recorded.
LOCATED = frozenset((Role.INSTRUCTION, Role.DATA, Role.INCBIN, Role.PROC))


def role_of(statement: Statement) -> Role:
    """Returns the role of a statement of a program that bin65 accepts."""
    if not statement.body:
        return Role.NOTHING
    first = statement.body[0]
    if first.kind is Kind.DIRECTIVE:
        return ROLES.get(first.lower, Role.OTHER)
    if first.kind is not Kind.NAME:
        return Role.OTHER
    if first.lower in words.MNEMONICS:
        return Role.INSTRUCTION
    return Role.CONSTANT if statement.is_constant else Role.CALL
