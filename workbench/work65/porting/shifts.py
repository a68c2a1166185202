"""Shifts to the right of what may be negative: bin65's keep the sign, cc65's don't."""
from typing import Optional, Sequence

from work65.frontend import words
from work65.frontend.expression import value
from work65.frontend.tokens import Kind, Token
from work65.porting.context import Context
from work65.porting.line import Unportable

SHIFTS = frozenset((">>", ".shr"))
LESS = frozenset(("-", "~", ".bitnot"))
SAME_LEVEL = frozenset(("*", "/", "&", "^", "<<", ">>", ".mod", ".bitand", ".bitxor", ".shl", ".shr"))
NOTE = "a shift of a negative number gives other bytes: divide if the remainder is 0"


def has_shift(tokens: Sequence[Token]) -> bool:
    """Returns whether a line shifts to the right, so that it may get another value than in cc65."""
    return any(it.lower in SHIFTS for it in tokens)


def refuse(tokens: Sequence[Token], context: Context) -> None:
    """Refuses a shift to the right of what may be negative."""
    for at, it in enumerate(tokens):
        if it.lower in SHIFTS and _may_be_negative(_left_of(tokens, at), context):
            raise Unportable(it.text, "form", NOTE)


def may_turn_negative(arguments: Sequence[Token], context: Context) -> bool:
    """Returns whether arguments of a macro that shifts may be negative there."""
    return any(it.text in LESS for it in arguments) or any(_is_below(it, context) for it in arguments)


def _left_of(tokens: Sequence[Token], at: int) -> Sequence[Token]:
    """Returns the operands of one level before an operator."""
    begin, depth = at, 0
    while begin > 0:
        it = tokens[begin - 1]
        depth += (it.text == ")") - (it.text == "(")
        if depth < 0 or depth == 0 and _is_end(tokens, begin - 1):
            break
        begin -= 1
    return tokens[begin:at]


def _is_end(tokens: Sequence[Token], at: int) -> bool:
    """Returns whether the next token is an operator of a lower precedence, or no part of an expression."""
    it = tokens[at]
    if it.text in ",#{}=" or it.text in ("<>", "<=", ">=", "&&", "||", "|", ":=", ":") or it.lower in words.MNEMONICS:
        return True
    if it.kind is Kind.DIRECTIVE:
        return it.lower not in SAME_LEVEL and it.lower not in words.PREFIX_WORDS
    is_infix = at > 0 and _is_operand(tokens[at - 1])
    return it.text in ("+", "-", "<", ">") and is_infix


def _is_operand(it: Token) -> bool:
    return it.text == ")" or it.kind in (Kind.NAME, Kind.CHEAP, Kind.NUMBER, Kind.CHARACTER, Kind.UNNAMED)


def _may_be_negative(left: Sequence[Token], context: Context) -> bool:
    """Returns whether an operand of a shift is below 0, or has a sign, a repeat's counter less something, or a constant below 0."""
    known = value(left, context.value)
    if known is not None:
        return known < 0
    last: Optional[Token] = None
    for it in left:
        if it.text in LESS and (last is None or not _is_operand(last)):
            return True
        if _is_below(it, context) or it.text == "-" and any(one.text in context.repeats for one in left):
            return True
        last = it
    return False


def _is_below(it: Token, context: Context) -> bool:
    found = value((it,), context.value) if it.kind is Kind.NAME else None
    return found is not None and found < 0
