"""`.org` before labels and room alone, as for the registers of a machine: each label is a constant."""
from typing import Dict, List, Optional, Sequence

from work65.frontend import words
from work65.frontend.expression import value
from work65.frontend.statements import Statement, parts_of, statement_in
from work65.frontend.tokens import Kind, Token, line_of
from work65.porting.context import Context
from work65.porting.line import Unportable, commented_out
from work65.porting.logical import Logical

UNITS = {".byte": 1, ".byt": 1, ".word": 2, ".addr": 2, ".dbyt": 2, ".dword": 4}
PASSED = words.SEGMENT_WORDS | {".segment", ".pushseg", ".popseg"}
ENDS = frozenset((".reloc", ".org", "*"))


def opened(text: str, statement: Statement, context: Context, following: Sequence[Logical], is_last: bool) -> List[str]:
    """Returns the line of an .org: a comment, where labels, data and room alone follow up to the next .org, the .reloc or the module's end."""
    number = value(statement.rest, context.certain)
    if number is None or context.macro is not None or context.repeats or any(it.is_live is not True for it in context.blocks):
        raise Unportable(".org", "org")
    for line in following:
        one = statement_in(line.text)
        if one.head in ENDS:
            break
        if _size(one, context) is None:
            raise Unportable(".org", "org")
    else:
        if not is_last:
            raise Unportable(".org", "org")
    context.place = number
    return [commented_out(text)]


def is_given(statement: Statement, context: Context, starts: Dict[str, int],
             following: Sequence[Logical]) -> bool:
    """Returns whether an .org before all that a program places is where the script begins the segment,
    and counts up to the end."""
    number, is_plain = value(statement.rest, context.certain), context.is_plain and not context.blocks
    if statement.label is not None or not is_plain or number is None:
        return False
    if number != starts.get(context.segment):
        return False
    return not any(statement_in(it.text).head in ENDS | PASSED for it in following)


def closed(text: str, context: Context) -> List[str]:
    """Returns the line of a .reloc."""
    if context.place is None:
        raise Unportable(".reloc", "org")
    context.place = None
    return [commented_out(text)]


def line(text: str, statement: Statement, context: Context) -> List[str]:
    """Rewrites a line after an .org: its label becomes a constant, and its data stays."""
    size, place, label = _size(statement, context), context.place, statement.label
    if size is None or place is None:
        raise Unportable(statement.head, "org")
    context.place = place + size
    if label is None:
        return [text]
    rest = text[statement.body[0].start :] if statement.body else ""
    comment = text[line_of(text).comment :] if not statement.body else ""
    first = f"{text[: label.end]} = ${place:04X}{'        ' + comment if comment else ''}"
    return [first, " " * statement.body[0].start + rest] if statement.body else [first]


def _size(statement: Statement, context: Context) -> Optional[int]:
    """Returns how many bytes a line places; None where that isn't known, or the line is another one."""
    head, rest = statement.head, statement.rest
    if statement.label is not None and statement.label.kind is not Kind.NAME:
        return None
    if not statement.body or head in PASSED:
        return 0
    if rest and rest[0].text in ("=", ":=") and not any(it.text == "*" for it in rest):
        return 0
    if head == ".res":
        return value(parts_of(rest)[0], context.certain) if rest else None
    if head not in UNITS or any(it.text == "*" for it in rest):
        return None
    return sum(_length(it) if head in (".byte", ".byt") else UNITS[head] for it in parts_of(rest))


def _length(part: Sequence[Token]) -> int:
    """Returns the bytes of an element of a list of bytes."""
    return len(part[0].text) - 2 if len(part) == 1 and part[0].kind is Kind.STRING else 1
