"""Finds the cause of the message *statement not understood* for a line.

The page MESSAGES has a table of causes, each with a source that is refused. A line's cause is that of the row whose refused
source has the same kind as the line."""
import enum
from typing import AbstractSet, Callable, List, Optional, Sequence

from work65.frontend import grammar, words
from work65.frontend.statements import Statement, is_instruction, parts_of, statement_in
from work65.frontend.tokens import Kind, Token, line_of


class Cause(enum.Enum):
    """The causes, by the kind of line."""

    COLON = "a label without its colon"
    LATE = "a macro that is defined further down"
    SPELLING = "a word that is none"
    PROCESSOR = "an instruction of another processor"
    RESERVED = "a name that is a register or an instruction"
    DIRECTIVE = "a directive that isn't here"
    FUNCTION = "a function that isn't here"
    SCOPE = "an import or export within a scope"
    PLACE = "a .set, .org or * ="
    EMPTY = "an empty place in a list"
    STRING = "a string where a number is wanted"
    PARENTHESIS = "an address that begins with a parenthesis"
    INSIDE = "an indirect operand with its y inside"
    OUTSIDE = "an indirect operand with its x outside"
    LABELS = "two labels in a line"
    QUOTES = "a segment without its quotes"
    TEXT = "a constant that is a string"
    CAPITALS = "an action in capitals"
    DOT = "a label that begins with a dot"
    EQUATE = "equ, db and the like of other assemblers"
    SLASHES = "a comment that isn't one of ca65's"
    TEXTS = "two strings behind .asciiz"
    NUMBER = "a number or a name where a string is wanted"
    OPERAND = "an operand that isn't finished"


EQUATES = frozenset("equ db dw dc ds dfb dfs org byte word text ascii fcb fdb rmb".split())
OWN = words.TAKEN - words.PREFIX_WORDS - words.INFIX_WORDS - words.NOT_WORDS


def cause_of(lines: Sequence[str], at: int, known: AbstractSet[str], later: AbstractSet[str], scopes: int) -> Optional[Cause]:
    """Returns the cause of a line, given ca65's directives, the macros defined further down, and the number of open scopes."""
    tokens = line_of(lines[at]).tokens
    if not tokens:
        return None
    if any(it.text == "/" and other.text in ("/", "*") and it.end == other.start for it, other in zip(tokens, tokens[1:])):
        return Cause.SLASHES
    statement = statement_in(lines[at])
    found = _of_label(tokens, statement)
    if found is None and statement.body:
        found = _of_head(statement, known, later, scopes) or _of_operand(statement)
    return found


def _of_label(tokens: Sequence[Token], statement: Statement) -> Optional[Cause]:
    first = tokens[0]
    second = tokens[1] if len(tokens) > 1 else None
    if first.kind is Kind.DIRECTIVE and second is not None and second.text == ":":
        return Cause.DOT
    if first.kind is Kind.NAME and second is not None and second.lower in EQUATES:
        return Cause.EQUATE
    reserved = words.MNEMONICS | words.REGISTERS
    if first.lower in reserved and second is not None and second.text in ("=", ":=", ":"):
        return Cause.RESERVED
    if statement.label is not None and not statement.has_colon:
        return Cause.COLON
    body = statement.body
    if statement.label is not None and len(body) > 1 and body[1].text == ":":
        return Cause.LABELS
    if first.kind is Kind.NAME and second is not None and not is_instruction(first.lower) and second.lower in words.MNEMONICS:
        return Cause.COLON
    return None


def _of_head(statement: Statement, known: AbstractSet[str], later: AbstractSet[str], scopes: int) -> Optional[Cause]:
    head, first, rest = statement.head, statement.body[0], statement.rest
    if rest and rest[0].lower == ".set" or head == ".org" or (head == "*" and rest and rest[0].text == "="):
        return Cause.PLACE
    if rest and rest[0].text in ("=", ":=") and len(rest) == 2 and rest[1].kind is Kind.STRING:
        return Cause.TEXT
    if first.kind is Kind.NAME and head not in words.MNEMONICS and not (rest and rest[0].text in ("=", ":=")):
        return _of_word(first, later)
    if first.kind is Kind.DIRECTIVE and head not in OWN:
        return Cause.DIRECTIVE if head in known else Cause.DOT if not rest else Cause.SPELLING
    if any(it.kind is Kind.DIRECTIVE and it.lower not in words.TAKEN for it in rest):
        return Cause.FUNCTION
    if head in words.LISTS and scopes:
        return Cause.SCOPE
    return None


def _of_word(first: Token, later: AbstractSet[str]) -> Cause:
    if first.text in later:
        return Cause.LATE
    if first.lower in EQUATES:
        return Cause.EQUATE
    return Cause.PROCESSOR if is_instruction(first.lower) else Cause.SPELLING


def _of_operand(statement: Statement) -> Optional[Cause]:
    head, rest = statement.head, statement.rest
    texts = [it.lower for it in rest]
    if head == ".segment" and rest and rest[0].kind is Kind.NAME:
        return Cause.QUOTES
    if head == ".assert" and any(it.lower in ("error", "warning") and it.text != it.lower for it in rest):
        return Cause.CAPITALS
    if head == ".asciiz" and "," in texts:
        return Cause.TEXTS
    if grammar.FIXED.get(head) == ('"',) and rest and rest[0].kind is not Kind.STRING:
        return Cause.NUMBER
    parts = parts_of(rest)
    if any(not part for part in parts):
        return Cause.EMPTY
    if head in words.MNEMONICS and texts[:1] == ["("]:
        return _of_indirect(texts)
    has_strings = head in (".byte", ".byt") and all(len(it) == 1 for it in parts if any(one.kind is Kind.STRING for one in it))
    if any(it.kind is Kind.STRING for it in rest) and not has_strings and head not in grammar.FIXED and head != ".assert":
        return Cause.STRING
    return Cause.OPERAND


def _of_indirect(texts: List[str]) -> Cause:
    if texts[-3:] == [",", "y", ")"]:
        return Cause.INSIDE
    if texts[-2:] == [",", "x"]:
        return Cause.OUTSIDE
    depth, closes = 0, 0
    for at, text in enumerate(texts):
        depth += (text == "(") - (text == ")")
        if depth == 0 and not closes:
            closes = at
    if depth == 0 and closes and closes + 1 < len(texts) and texts[closes + 1] != ",":
        return Cause.PARENTHESIS
    return Cause.OPERAND


def scopes_before(lines: Sequence[str], at: int) -> int:
    """Returns the number of scopes that are open before a line."""
    heads = [statement_in(it).head for it in lines[:at]]
    return sum(it in (".scope", ".proc") for it in heads) - sum(it in (".endscope", ".endproc") for it in heads)


def macros_in(lines: Sequence[str], chosen: Callable[[int], bool]) -> AbstractSet[str]:
    """Returns the names of the macros that the chosen lines define."""
    found = set()
    for at, it in enumerate(lines):
        statement = statement_in(it)
        if chosen(at) and statement.head in words.MACRO_BEGINS and statement.rest:
            found.add(statement.rest[0].text)
    return found
