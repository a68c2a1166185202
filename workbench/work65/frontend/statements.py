"""The statement reader: splits the tokens of a line into a label and a statement."""
from functools import lru_cache
from typing import AbstractSet, Callable, Iterable, List, NamedTuple, Optional, Sequence, Tuple

from work65.frontend import words
from work65.frontend.tokens import Kind, Token, line_of


class Statement(NamedTuple):
    """The label of a line, whether it has its colon, and the rest of the tokens. The name of a definition is no label."""

    label: Optional[Token]
    has_colon: bool
    body: Tuple[Token, ...]

    @property
    def head(self) -> str:
        """The first word of the statement in lower case, empty if there is no statement."""
        return self.body[0].lower if self.body else ""

    @property
    def rest(self) -> Tuple[Token, ...]:
        """The tokens after the first word."""
        return self.body[1:]

    @property
    def is_constant(self) -> bool:
        """Returns whether the statement has the form of a definition with `=` or `:=`."""
        return len(self.body) > 1 and self.body[1].text in ("=", ":=")


def is_instruction(word: str) -> bool:
    """Returns whether a word in lower case is an instruction of any processor that cc65 knows."""
    return word in words.MNEMONICS or word in words.OTHER_PROCESSORS or word in words.UNDOCUMENTED


def statement_of(tokens: Sequence[Token], is_macro: Optional[Callable[[str], bool]]) -> Statement:
    """Reads a line. A name in the first column is a label without a colon if it is neither a macro nor an instruction; if `is_macro`
    is None, each label has its colon, as in a program that bin65 accepts."""
    if not tokens:
        return Statement(None, True, ())
    first = tokens[0]
    if first.text == ":":
        return Statement(first, True, tuple(tokens[1:]))
    if first.kind in (Kind.NAME, Kind.CHEAP) and len(tokens) > 1 and tokens[1].text == ":":
        return Statement(first, True, tuple(tokens[2:]))
    if is_macro is not None and _is_bare_label(tokens, is_macro):
        return Statement(first, False, tuple(tokens[1:]))
    return Statement(None, True, tuple(tokens))


def _is_bare_label(tokens: Sequence[Token], is_macro: Callable[[str], bool]) -> bool:
    """Returns whether a line begins with a label that lacks its colon."""
    first = tokens[0]
    if first.kind is Kind.CHEAP:
        is_definition = len(tokens) > 1 and tokens[1].lower in ("=", ":=", ".set")
        return not is_definition and (first.start == 0 or len(tokens) > 1)
    if first.kind is not Kind.NAME or first.start > 0 or is_macro(first.text):
        return False
    if first.lower in words.MNEMONICS or first.lower in words.REGISTERS:
        return False
    if len(tokens) == 1:
        return not is_instruction(first.lower)
    second = tokens[1]
    if second.kind is Kind.DIRECTIVE:
        return second.lower not in (".set",) and second.lower not in words.INFIX_WORDS
    return second.kind is Kind.NAME and (second.lower in words.MNEMONICS or is_macro(second.text))


@lru_cache(maxsize=1 << 16)
def statement_in(text: str, has_escapes: bool = False) -> Statement:
    """Reads a line without knowing any macro."""
    return statement_of(line_of(text, has_escapes).tokens, lambda _: False)


def accepted_statement(text: str, is_expanded: bool = False) -> Statement:
    """Reads a line of a program that bin65 accepts, which may be one of a call with its names replaced."""
    return statement_of(line_of(text, is_expanded=is_expanded).tokens, None)


def block_length(heads: Iterable[str], begins: AbstractSet[str], ends: AbstractSet[str]) -> Optional[int]:
    """Returns the number of lines between the first line of a block and its last, given the heads of the lines after the first. Blocks
    nest. None if the block isn't closed."""
    depth = 1
    for at, head in enumerate(heads):
        depth += (head in begins) - (head in ends)
        if depth == 0:
            return at
    return None


def parts_of(tokens: Sequence[Token], has_parentheses: bool = True) -> List[List[Token]]:
    """Splits a list at its commas outside braces, and outside parentheses unless these have no meaning, as in macro calls."""
    parts: List[List[Token]] = [[]]
    depth = braces = 0
    for token in tokens:
        braces += (token.text == "{") - (token.text == "}")
        if has_parentheses and braces <= 0:
            depth += (token.text in ("(", "[")) - (token.text in (")", "]"))
        if token.text == "," and depth <= 0 and braces <= 0:
            parts.append([])
        else:
            parts[-1].append(token)
    return parts if tokens else []
