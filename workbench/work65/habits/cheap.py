"""Finds cheap labels that have two definitions with only a constant between them: in cc65 a constant ends their region."""
from typing import Iterator, Sequence, Set, Tuple

from work65.frontend import words
from work65.frontend.files import Text
from work65.frontend.tokens import Kind, Token, line_of

BLOCKS = words.CONDITIONS | words.MACRO_BEGINS | words.REPEAT_BEGINS
ENDS = words.MACRO_ENDS | words.REPEAT_ENDS | {".endif"}
PLAIN = words.MNEMONICS | words.DATA | {".res", ".align", ".asciiz", ".out", ".assert"}


def twice(text: Text) -> Iterator[Tuple[int, str]]:
    """Yields the line number and the label of each second definition outside conditions, macros and repeats."""
    region: Set[str] = set()
    depth = 0
    for number, line in enumerate(text.lines, 1):
        tokens: Sequence[Token] = line_of(line).tokens
        if len(tokens) > 1 and tokens[0].kind is Kind.CHEAP and tokens[1].text == ":":
            if depth == 0 and tokens[0].text in region:
                yield number, tokens[0].text
            region.add(tokens[0].text)
            tokens = tokens[2:]
        elif tokens and tokens[0].text == ":":
            tokens = tokens[1:]
        if tokens and not _keeps(tokens):
            region.clear()
            depth = max(0, depth + (tokens[0].lower in BLOCKS) - (tokens[0].lower in ENDS))


def _keeps(tokens: Sequence[Token]) -> bool:
    """Returns whether the region of cheap labels certainly continues after a statement."""
    first = tokens[0]
    return first.lower in PLAIN or first.kind is Kind.NAME and len(tokens) > 1 and tokens[1].text in ("=", ":=")
