"""The lexer: splits a line into tokens with their positions, so that a line can be rewritten and keep its layout."""
import enum
import re
from functools import lru_cache
from typing import List, NamedTuple, Optional, Tuple


class Kind(enum.Enum):
    """The kind of a token."""

    NAME = "name"
    CHEAP = "cheap name"
    DIRECTIVE = "directive"
    NUMBER = "number"
    CHARACTER = "character"
    STRING = "string"
    UNNAMED = "unnamed reference"
    PREFIX = "size prefix"
    SIGN = "sign"
    BAD = "bad"


class Token(NamedTuple):
    """A token: its kind, its text, its text in lower case, and its first column and the one after its last, from 0."""

    kind: Kind
    text: str
    lower: str
    start: int
    end: int


class LexedLine(NamedTuple):
    """The tokens of a line, and the column of its comment (the line's length if it has none)."""

    tokens: Tuple[Token, ...]
    comment: int


_COMMON = r"""(?P<space>[ \t]+)|(?P<prefix>[AaZzFf]:(?![:=]))|(?P<name>[A-Za-z_][0-9A-Za-z_]*)|(?P<comment>;.*)
|(?P<string>"[^"]*"?)|(?P<character>'[^']'|'''|'[^']*'?)
|(?P<number>\$[0-9A-Za-z_]*|%[0-9A-Za-z_]+|[0-9][0-9A-Za-z_]*)
|(?P<directive>\.[A-Za-z_][0-9A-Za-z_]*)|(?P<cheap>@[0-9A-Za-z_]*)
|(?P<sign>::|:=|<>|<=|>=|<<|>>|&&|\|\|)|(?P<unnamed>:(?:\++|-+|<+|>+))|(?P<one>[-:+*/&|^~<>=!()\#,{}\[\]])|(?P<bad>.)"""
_PLAIN = re.compile(_COMMON, re.X | re.S)
_ESCAPED = re.compile(_COMMON.replace(r'"[^"]*"?', r'"(?:\\.|[^"\\])*"?'), re.X | re.S)
# A name of .local in a line of a call: the name, `?` and the number of the call.
_EXPANDED = re.compile(_COMMON.replace("(?P<name>", r"(?P<name>[A-Za-z_][0-9A-Za-z_]*\?[0-9]+|"), re.X | re.S)
# At the beginning of a line, a letter that is a size prefix elsewhere is a label.
_LABEL = re.compile(r"[ \t]*([AaZzFf])(?=:)")
_KINDS = {
    "string": Kind.STRING, "character": Kind.CHARACTER, "number": Kind.NUMBER, "directive": Kind.DIRECTIVE,
    "cheap": Kind.CHEAP, "prefix": Kind.PREFIX, "name": Kind.NAME, "sign": Kind.SIGN, "unnamed": Kind.UNNAMED, "one": Kind.SIGN, "bad": Kind.BAD,
}


def line_of(text: str, has_escapes: bool = False, is_expanded: bool = False) -> LexedLine:
    """Splits a line into tokens. With escapes, a backslash in a string takes the next character with it. In an expanded line, the
    names of .local have the numbers that bin65 gives them."""
    return _lexed(text, has_escapes, is_expanded)


@lru_cache(maxsize=1 << 16)
def _lexed(text: str, has_escapes: bool, is_expanded: bool) -> LexedLine:
    """Splits a line into tokens. Many lines of a program are the same."""
    found: List[Token] = []
    comment = len(text)
    label = _LABEL.match(text)
    if label:
        found.append(Token(Kind.NAME, label[1], label[1].lower(), label.start(1), label.end(1)))
    pattern = _ESCAPED if has_escapes else _EXPANDED if is_expanded else _PLAIN
    for match in pattern.finditer(text, label.end(1) if label else 0):
        group = match.lastgroup or "bad"
        if group == "space":
            continue
        if group == "comment":
            comment = match.start()
            break
        word = match[0]
        found.append(Token(_KINDS[group], word, word.lower(), match.start(), match.end()))
    return LexedLine(tuple(found), comment)


# More digits make no other number: each is too large.
MOST_DIGITS = 40
_NUMBER = re.compile(r"\$[0-9A-Fa-f]+|%[01]+|[0-9]+|[0-9][0-9A-Fa-f]*h", re.A)


def value_of(text: str) -> Optional[int]:
    """Returns the value of a number, ignoring underscores. None if the text is no number."""
    plain = text.replace("_", "")
    if not _NUMBER.fullmatch(plain):
        return None
    if plain[0] == "$":
        return int(plain[1:], 16)
    if plain[0] == "%":
        return int(plain[1:], 2)
    return int(plain[:-1], 16) if plain[-1] in "hH" else int(plain.lstrip("0")[:MOST_DIGITS] or "0")


def is_closed(token: Token) -> bool:
    """Returns whether a string or a character has its closing quote, and a character has one byte."""
    if token.kind is Kind.STRING:
        return len(token.text) > 1 and token.text.endswith('"')
    return len(token.text) == 3 and token.text.endswith("'")
