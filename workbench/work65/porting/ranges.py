"""`.feature force_range`: values that don't fit are cut, as cc65 cuts them."""
from typing import List, Sequence, Tuple

from work65.frontend import words
from work65.frontend.edits import edited, text_of_tokens
from work65.frontend.expression import value
from work65.frontend.statements import Statement, parts_of
from work65.frontend.tokens import Kind, Token
from work65.porting.context import Context

Edit = Tuple[int, int, str]
BITS = {".byte": 8, ".byt": 8, ".word": 16, ".addr": 16, ".dbyt": 16, ".dword": 32}
CUTTING = frozenset(("<", ">", "^", ".lobyte", ".hibyte", ".bankbyte"))
PLAIN = frozenset((Kind.NAME, Kind.CHEAP, Kind.UNNAMED))


def cut(text: str, statement: Statement, context: Context) -> str:
    """Returns a line whose operands fit their bytes."""
    if statement.head in words.MNEMONICS and statement.rest and statement.rest[0].text == "#":
        return edited(text, _cut(text, statement.rest[1:], 8, context))
    bits = BITS.get(statement.head)
    if bits is None:
        return text
    edits: List[Edit] = []
    for part in parts_of(statement.rest):
        if part and part[0].kind is not Kind.STRING and not (len(part) == 1 and part[0].text in context.parameters):
            edits += _cut(text, part, bits, context)
    return edited(text, edits)


def may_be_cut(arguments: Sequence[Token], context: Context) -> bool:
    """Returns whether a value among arguments may not fit a byte."""
    for part in parts_of(arguments):
        known = value(part, context.value)
        if known is not None and not 0 <= known < 256 or known is None and any(it.text in "-~" for it in part):
            return True
    return False


def _cut(text: str, part: Sequence[Token], bits: int, context: Context) -> List[Edit]:
    """Returns what makes one expression fit."""
    known = value(part, context.certain)
    if not part or known is not None and 0 <= known < 1 << bits or _is_cut(part, bits):
        return []
    inner = text_of_tokens(text, part)
    shown = f"<({inner})" if bits == 8 else f"({inner}) & ${(1 << bits) - 1:X}"
    return [(part[0].start, part[-1].end, shown)]


def _is_cut(part: Sequence[Token], bits: int) -> bool:
    """Returns whether an expression fits as it is: a byte of something, or an address."""
    if len(part) == 2 and part[0].lower in CUTTING:
        return True
    return bits > 8 and all(it.kind in PLAIN or it.text in ("::", "*") for it in part) and sum(it.text == "*" for it in part) <= 1
