"""Edits of a line at the positions of its tokens."""
from typing import Iterable, Sequence, Tuple

from work65.frontend.tokens import Token

Edit = Tuple[int, int, str]


def edited(text: str, edits: Iterable[Edit]) -> str:
    """Returns a text with pieces of it replaced, each given by its start, its end and the new text. Pieces don't overlap."""
    found, at = [], 0
    for start, end, new in sorted(edits):
        found += [text[at:start], new]
        at = end
    return "".join(found) + text[at:]


def text_of_tokens(text: str, tokens: Sequence[Token]) -> str:
    """Returns the text from the first of some tokens to the last, empty if there are none."""
    return text[tokens[0].start : tokens[-1].end] if tokens else ""
