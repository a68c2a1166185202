"""Properties of a line that follow from its text. Lines that files share are examined once."""
from functools import lru_cache
from typing import FrozenSet, NamedTuple, Sequence, Tuple

from work65.frontend import words
from work65.frontend.statements import parts_of
from work65.frontend.tokens import Kind, Token, line_of
from work65.habits.sources import is_plain
from work65.porting.characters import has_text
from work65.porting.long_lines import MOST_BYTES


class Facts(NamedTuple):
    """The tokens of a line, whether bin65 takes it as it is, its names, and whether it has text or a `*` in a list, and is too long."""

    tokens: Tuple[Token, ...]
    is_plain: bool
    names: FrozenSet[str]
    has_text: bool
    has_star: bool
    directives: FrozenSet[str]
    is_long: bool


@lru_cache(maxsize=1 << 16)
def facts_of(text: str, has_escapes: bool) -> Facts:
    """Looks at a line."""
    tokens = line_of(text, has_escapes).tokens
    names = frozenset(it.text for it in tokens if it.kind in (Kind.NAME, Kind.CHEAP))
    directives = frozenset(it.lower for it in tokens if it.kind is Kind.DIRECTIVE)
    return Facts(tokens, is_plain(text, has_escapes), names, has_text(tokens), _has_star(tokens), directives, len(text) > MOST_BYTES)


def _has_star(tokens: Tuple[Token, ...]) -> bool:
    """Returns whether a list of data has `*` as an operand in a later element."""
    at = next((at for at, it in enumerate(tokens) if it.lower in words.DATA), None)
    return at is not None and any(star_in(part) for part in parts_of(tokens[at + 1 :])[1:])


def star_in(part: Sequence[Token]) -> bool:
    """Returns whether `*` is an operand of an expression."""
    last = ""
    for it in part:
        if it.text == "*" and (last in ("", "(", ",") or last in "+-*/|&^<>=~!" or last in words.INFIX_WORDS):
            return True
        last = it.lower
    return False
