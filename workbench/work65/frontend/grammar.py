"""The grammar of bin65's statements, over the shapes of tokens.

A shape is 'n' for a name, '@' for a cheap name, '0' for a number or a character, '"' for a string, 'bad' for a text that is no
token of bin65, and otherwise the token's text in small letters."""
from functools import lru_cache
from typing import Optional, Sequence, Tuple

from work65.frontend import words
from work65.frontend.tokens import Kind, Token, is_closed, value_of

Shapes = Tuple[str, ...]
PREFIXES = frozenset("+-~<>^") | words.PREFIX_WORDS
NOTS = frozenset("!") | words.NOT_WORDS
INFIXES = frozenset("* / & ^ << >> + - | = <> < > <= >= && ||".split()) | words.INFIX_WORDS
FIXED = {
    ".segment": ('"',), ".out": ('"',), ".warning": ('"',), ".setcpu": ('"',), ".asciiz": ('"',), ".include": ('"',),
    ".error": ('"',), ".proc": ("n",),
}
NAMES = frozenset((Kind.NAME, Kind.CHEAP, Kind.DIRECTIVE))
LONGEST_NAME = 200
ALONE = words.BARE | words.MACRO_ENDS | words.REPEAT_ENDS | {".exitmacro", ".exitmac", ".else", ".endif", ".end"}


def shape_of(token: Token) -> str:
    """Returns the shape of a token."""
    kind, lower = token.kind, token.lower
    if kind in NAMES and len(lower.lstrip("@.")) > LONGEST_NAME:
        return "bad"
    if kind is Kind.NAME:
        return lower if lower in words.MNEMONICS or lower in words.REGISTERS else "n"
    if kind is Kind.CHEAP:
        return "@" if len(lower) > 1 and not lower[1].isdigit() else "bad"
    if kind is Kind.NUMBER:
        return "0" if _is_number(token.text) else "bad"
    if kind in (Kind.STRING, Kind.CHARACTER):
        closed = '"' if kind is Kind.STRING else "0"
        return closed if is_closed(token) else "bad"
    if kind is Kind.UNNAMED:
        return ":+" if lower[1] in "+-" else "bad"
    if kind is Kind.PREFIX:
        return "z:" if lower in ("a:", "z:") else "bad"
    return "bad" if kind is Kind.BAD or lower in "[]" else lower


def _is_number(text: str) -> bool:
    value = value_of(text)
    return value is not None and value <= 0xFFFFFFFF and "_" not in text and not text.endswith("H")


@lru_cache(maxsize=1 << 15)
def wrong(shapes: Shapes) -> Optional[int]:
    """Returns the index of the first token that bin65 rejects in a line without a macro call, None if it accepts the line."""
    if "bad" in shapes:
        return shapes.index("bad")
    return _GrammarReader(shapes).line()


class _Stop(Exception):
    """A shape that bin65 doesn't accept at this index."""


class _GrammarReader:
    """Reads shapes from the left."""

    def __init__(self, shapes: Sequence[str]) -> None:
        self.shapes = (*shapes, "end")
        self.at = 0

    def line(self) -> Optional[int]:
        """Reads a whole line."""
        try:
            self.label()
            self.statement()
            self.want("end")
        except (_Stop, RecursionError):
            return min(self.at, len(self.shapes) - 2)
        return None

    @property
    def now(self) -> str:
        return self.shapes[self.at]

    def take(self, *wanted: str) -> bool:
        """Skips the shape if it is one of these. Returns whether it was."""
        if self.now not in wanted or self.now == "end":
            return False
        self.at += 1
        return True

    def want(self, *wanted: str) -> None:
        """Skips a shape, which must be one of these. The end isn't skipped."""
        if self.now == "end" and "end" in wanted:
            return
        if not self.take(*wanted):
            raise _Stop

    def label(self) -> None:
        """Reads a label."""
        if self.now == ":":
            self.at += 1
        elif self.now in ("n", "@") and self.shapes[self.at + 1] == ":":
            self.at += 2

    def statement(self) -> None:
        """Reads a statement, if there is one."""
        head = self.now
        if head == "end":
            return
        self.at += 1
        if head == "n":
            self.want("=", ":=")
            self.expression()
        elif head in words.MNEMONICS:
            self.operand(head)
        elif head in FIXED or head in ALONE:
            for shape in FIXED.get(head, ()):
                self.want(shape)
            if head == ".segment" and self.take(":"):
                self.want("n")
        else:
            self.directive(head)

    def directive(self, head: str) -> None:
        """Reads the operands of a directive."""
        if head in words.DATA:
            self.elements(head in (".byte", ".byt"))
        elif head in (".res", ".align"):
            self.expressions(2)
        elif head == ".incbin":
            self.want('"')
            if self.take(","):
                self.expressions(2)
        elif head in words.LISTS or head == ".local":
            self.names()
        elif head in (".if", ".elseif"):
            self.expression()
        elif head in (".ifblank", ".ifnblank"):
            self.at = len(self.shapes) - 1
        else:
            self.other(head)

    def other(self, head: str) -> None:
        """Reads the operands of a directive that has a form of its own."""
        if head in (".ifdef", ".ifndef"):
            self.scoped()
        elif head in words.MACRO_BEGINS:
            self.want("n")
            if self.now != "end":
                self.names()
        elif head == ".repeat":
            self.expression()
            if self.take(","):
                self.want("n")
        elif head == ".scope":
            self.take("n")
        elif head == ".assert":
            self.expression()
            self.want(",")
            self.want("n")
            if self.take(","):
                self.want('"')
        else:
            self.at -= 1
            raise _Stop

    def names(self) -> None:
        """Reads a list of names."""
        self.want("n")
        while self.take(","):
            self.want("n")

    def elements(self, has_strings: bool) -> None:
        """Reads the elements of a list of data."""
        while True:
            if not (has_strings and self.take('"')):
                self.expression()
            if not self.take(","):
                return

    def expressions(self, most: int) -> None:
        """Reads a list of at most `most` expressions."""
        self.expression()
        if most > 1 and self.take(","):
            self.expressions(most - 1)

    def operand(self, mnemonic: str) -> None:
        """Reads the operand of an instruction."""
        if self.now == "end" or (self.now == "a" and self.take("a")):
            return
        if mnemonic == "brk":
            raise _Stop
        if self.take("#"):
            self.expression()
        elif self.take("("):
            self.expression()
            if self.take(","):
                self.want("x")
                self.want(")")
                return
            self.want(")")
            if self.take(","):
                self.want("y")
        else:
            self.take("z:")
            self.expression()
            if self.take(","):
                self.want("x", "y")

    def scoped(self) -> None:
        """Reads a name with its scopes."""
        self.take("::")
        self.want("n")
        while self.take("::"):
            self.want("n")

    def expression(self) -> None:
        """Reads an expression: `!` only at its start, and operators between operands."""
        while self.now in NOTS:
            self.at += 1
        self.term()
        while self.now in INFIXES:
            self.at += 1
            self.term()

    def term(self) -> None:
        """Reads an operand with its prefix operators."""
        while self.now in PREFIXES:
            self.at += 1
        if self.take("0", "*", "@", ":+", ".paramcount"):
            return
        if self.take("("):
            self.expression()
            self.want(")")
        else:
            self.scoped()
