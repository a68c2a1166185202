"""Evaluates expressions of numbers and known names."""
from typing import Callable, Dict, Optional, Sequence, Tuple

from work65.frontend.grammar import NOTS, PREFIXES
from work65.frontend.tokens import Kind, Token, is_closed, value_of

Lookup = Callable[[str], Optional[int]]
LEVELS: Dict[str, int] = {}
for _level, _signs in enumerate(
    ("|| .or", "&& .and .xor", "= <> < > <= >=", "+ - | .bitor", "* / .mod & ^ << >> .bitand .bitxor .shl .shr")
):
    LEVELS.update({sign: _level for sign in _signs.split()})
SAME = {
    ".or": "||", ".and": "&&", ".bitor": "|", ".bitand": "&", ".bitxor": "^", ".shl": "<<", ".shr": ">>", ".bitnot": "~",
    ".lobyte": "<", ".hibyte": ">", ".bankbyte": "^", ".not": "!",
}


class Unknown(Exception):
    """An expression whose value isn't known."""


def value(tokens: Sequence[Token], lookup: Lookup) -> Optional[int]:
    """Returns the value of an expression. None if it isn't known or the tokens are no expression."""
    reader = _Reader(tokens, lookup)
    try:
        found = reader.whole()
    except (Unknown, RecursionError):
        return None
    return found if reader.at == len(tokens) else None


def nothing_known(name: str) -> Optional[int]:
    """Returns None for every name."""
    return None


class _Reader:
    """Reads tokens from the left."""

    def __init__(self, tokens: Sequence[Token], lookup: Lookup) -> None:
        self.tokens, self.lookup, self.at = tokens, lookup, 0

    @property
    def now(self) -> str:
        return self.tokens[self.at].lower if self.at < len(self.tokens) else ""

    def whole(self) -> int:
        """Reads an expression that may begin with `!`."""
        if self.now in NOTS:
            self.at += 1
            return int(not self.whole())
        return self.level(0)

    def level(self, level: int) -> int:
        """Reads operands with operators of one level between them."""
        if level == 5:
            return self.term()
        found = self.level(level + 1)
        while LEVELS.get(self.now) == level:
            sign = self.now
            self.at += 1
            value = combined(SAME.get(sign, sign), found, self.level(level + 1))
            if value is None:
                raise Unknown
            found = value
        return found

    def term(self) -> int:
        """Reads an operand with its prefix operators."""
        if self.now in PREFIXES:
            sign = SAME.get(self.now, self.now)
            self.at += 1
            return prefixed(sign, self.term())
        if self.now == "(":
            self.at += 1
            found = self.whole()
            if self.now != ")":
                raise Unknown
            self.at += 1
            return found
        return self.operand()

    def operand(self) -> int:
        """Reads a number, a character or a name."""
        if self.at >= len(self.tokens):
            raise Unknown
        one = self.tokens[self.at]
        found: Optional[int] = None
        if one.kind is Kind.NUMBER:
            found = value_of(one.text)
            self.at += 1
        elif one.kind is Kind.CHARACTER and is_closed(one):
            found = ord(one.text[1])
            self.at += 1
        else:
            name, self.at = scoped_name(self.tokens, self.at)
            found = self.lookup(name) if name else None
        if found is None:
            raise Unknown
        return found


def scoped_name(tokens: Sequence[Token], at: int) -> Tuple[str, int]:
    """Reads a name with its scopes. Returns it, empty if there is none, and the index after it."""
    begin, name = at, ""
    if at < len(tokens) and tokens[at].text == "::":
        name, at = "::", at + 1
    while at < len(tokens) and tokens[at].kind is Kind.NAME:
        name, at = name + tokens[at].text, at + 1
        if at + 1 < len(tokens) and tokens[at].text == "::" and tokens[at + 1].kind is Kind.NAME:
            name, at = name + "::", at + 1
        else:
            return name, at
    return "", begin


def wrapped(value: int) -> int:
    """Wraps a value to 64 bits with a sign."""
    return (value + (1 << 63)) % (1 << 64) - (1 << 63)


UNARY: Dict[str, Callable[[int], int]] = {
    "<": lambda a: a & 255, ">": lambda a: a >> 8 & 255, "^": lambda a: a >> 16 & 255,
    "+": lambda a: a, "-": lambda a: -a, "~": lambda a: ~a, "!": lambda a: int(not a),
}
BINARY: Dict[str, Callable[[int, int], int]] = {
    "*": lambda a, b: a * b, "&": lambda a, b: a & b, "^": lambda a, b: a ^ b, "|": lambda a, b: a | b,
    "+": lambda a, b: a + b, "-": lambda a, b: a - b, "=": lambda a, b: int(a == b), "<>": lambda a, b: int(a != b),
    "<": lambda a, b: int(a < b), ">": lambda a, b: int(a > b), "<=": lambda a, b: int(a <= b), ">=": lambda a, b: int(a >= b),
    "&&": lambda a, b: int(bool(a and b)), ".xor": lambda a, b: int(bool(a) != bool(b)), "||": lambda a, b: int(bool(a or b)),
}


def prefixed(sign: str, operand: int) -> int:
    """Returns the value of a prefix operator."""
    return wrapped(UNARY[sign](operand))


def combined(sign: str, a: int, b: int) -> Optional[int]:
    """Returns the value of an operator between two operands, None if it has none."""
    if sign in BINARY:
        return wrapped(BINARY[sign](a, b))
    if sign in ("<<", ">>"):
        return None if not 0 <= b < 64 else wrapped(a << b if sign == "<<" else a >> b)
    if b == 0:
        return None
    quotient = abs(a) // abs(b) * (1 if (a < 0) == (b < 0) else -1)
    return wrapped(quotient if sign == "/" else a - quotient * b)
