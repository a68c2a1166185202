"""Sources as lists of statements, each a kind and what belongs to it, and the values of operators.

The statements are those after expansion: a source with a macro, a condition, a repeat or an include isn't read here.
"""

import operator
import os
import re

TABLE = os.path.join(os.path.dirname(os.path.abspath(__file__)), "../../docs/tables/opcodes.txt")


class Refused(Exception):
    """There is no image, for this reason."""


class NotRead(Exception):
    """A statement that isn't read here."""


# ---- The values of operators.


def wrapped(value):
    return (value + 2**63) % 2**64 - 2**63


def quotient(a, b):
    """The quotient, towards zero."""
    return abs(a) // abs(b) * (1 if (a < 0) == (b < 0) else -1)


ONE = {
    "+": lambda a: a,
    "-": operator.neg,
    "~": operator.invert,
    "<": lambda a: a & 255,
    ">": lambda a: a >> 8 & 255,
    "^": lambda a: a >> 16 & 255,
    "!": operator.not_,
}
# The operators for two operands by levels, the tightest first.
LEVELS = [
    {"*": operator.mul, "/": quotient, ".mod": lambda a, b: a - b * quotient(a, b), "&": operator.and_,
     "^": operator.xor, "<<": operator.lshift, ">>": operator.rshift},
    {"+": operator.add, "-": operator.sub, "|": operator.or_},
    {"=": operator.eq, "<>": operator.ne, "<": operator.lt, ">": operator.gt, "<=": operator.le, ">=": operator.ge},
    {"&&": lambda a, b: a != 0 and b != 0, ".xor": lambda a, b: (a != 0) != (b != 0)},
    {"||": lambda a, b: a != 0 or b != 0},
]
TWO = {sign: formula for level in LEVELS for sign, formula in level.items()}
# Words that mean a sign.
SIGNS = {".bitnot": "~", ".lobyte": "<", ".hibyte": ">", ".bankbyte": "^", ".bitand": "&", ".bitxor": "^", ".shl": "<<",
         ".shr": ">>", ".bitor": "|", ".and": "&&", ".or": "||", ".not": "!", ".mod": ".mod", ".xor": ".xor"}


def value1(sign, a):
    return wrapped(int(ONE[sign](a)))


def value2(sign, a, b):
    if sign in ("/", ".mod") and b == 0 or sign in ("<<", ">>") and not 0 <= b <= 63:
        raise Refused("zero divisor or bad shift count")
    return wrapped(int(TWO[sign](a, b)))


# ---- Lines.

TOKEN = re.compile(
    r"[ \t]+|;.*|(?P<string>\"[^\"]*\")|'(?P<character>.)'|(?P<number>[$%\d]\w*)|(?P<prefix>[azAZ]:(?![:=]))"
    r"|(?P<name>[@.]?[A-Za-z_]\w*)|(?P<unnamed>:(?:\++|-+))|(?P<sign>::|:=|<>|<=|>=|<<|>>|&&|\|\||[-:+*/|&^~<>=!()#,])"
)
DATA = {".byte": "byte", ".byt": "byte", ".word": "word", ".addr": "word", ".dbyt": "dbyt", ".dword": "dword"}
SEGMENTS = {".code": "CODE", ".rodata": "RODATA", ".data": "DATA", ".bss": "BSS", ".zeropage": "ZEROPAGE"}
LISTS = {".import": "import", ".importzp": "importzp", ".export": "export", ".exportzp": "export", ".global": "global",
         ".globalzp": "globalzp", ".forceimport": "forced"}
ALONE = {".pushseg": "push", ".popseg": "pop", ".endscope": "close", ".endproc": "close", ".p02": "nothing"}


def opcodes():
    """The opcode of each mnemonic with each form of operand that it has."""
    table, forms = {}, []
    with open(TABLE) as it:
        lines = [line for line in it.read().splitlines() if line and line[0] != "#"]
    for line in lines:
        if line[0] == " ":
            forms = line.split()
        else:
            mnemonic, *codes = line.split()
            table.update({(mnemonic, form): int(code, 16) for form, code in zip(forms, codes) if code != "-"})
    return table


OPCODES = opcodes()
MNEMONICS = {mnemonic for mnemonic, form in OPCODES}
REGISTERS = {"a", "x", "y"}


def number(text):
    if text[0] in "$%":
        return int(text[1:], 16 if text[0] == "$" else 2)
    return int(text[:-1], 16) if text[-1] in "hH" else int(text)


class Line:
    """The tokens of a line, taken from left to right."""

    def __init__(self, text):
        self.tokens, at = [], 0
        while at < len(text):
            found = TOKEN.match(text, at)
            if found and found.lastgroup == "prefix" and not self.tokens:
                found = re.compile("(?P<name>[azAZ])").match(text, at)
            if not found:
                raise NotRead(text)
            at, kind = found.end(), found.lastgroup
            if kind:
                word = found[kind]
                self.tokens.append(("sign", SIGNS[word.lower()]) if word.lower() in SIGNS else (kind, word))
        self.tokens.append(("end", ""))
        self.tokens.reverse()

    def take(self, *signs):
        """The next token where it is one of these signs."""
        return self.tokens.pop()[1] if self.tokens[-1][0] == "sign" and self.tokens[-1][1] in signs else None

    def need(self, kind, *words):
        """The next token, which has to be of this kind, and one of these words where there are any."""
        found, word = self.tokens.pop()
        if found != kind or words and word.lower() not in words:
            raise NotRead(word)
        return word

    def next_is(self, kind, *words):
        return self.tokens[-1][0] == kind and (not words or self.tokens[-1][1].lower() in words)

    def identifier(self):
        word = self.need("name")
        if word[0] in "@." or word.lower() in MNEMONICS | REGISTERS:
            raise NotRead(word)
        return word

    def listed(self, read):
        """Reads one or more items between commas."""
        found = [read()]
        while self.take(","):
            found.append(read())
        return found

    # An expression is a number, ("here",), ("cheap", name), ("unnamed", steps), ("name", parts), or an operator's sign
    # behind "one" or "two", and its operands.

    def expression(self):
        return ("one", "!", self.expression()) if self.take("!") else self.level(len(LEVELS))

    def level(self, n):
        if n == 0:
            return self.prefixed()
        found = self.level(n - 1)
        while sign := self.take(*LEVELS[n - 1]):
            found = ("two", sign, found, self.level(n - 1))
        return found

    def prefixed(self):
        if sign := self.take("+", "-", "~", "<", ">", "^"):
            return ("one", sign, self.prefixed())
        if self.take("("):
            found = self.expression()
            self.need("sign", ")")
            return found
        if self.take("*"):
            return ("here",)
        if self.next_is("sign", "::"):
            return self.scoped([""])
        kind, word = self.tokens.pop()
        if kind == "number":
            return number(word)
        if kind == "character":
            return ord(word)
        if kind == "unnamed":
            return ("unnamed", (len(word) - 1) * (1 if word[1] == "+" else -1))
        if kind == "name" and word[0] == "@":
            return ("cheap", word)
        self.tokens.append((kind, word))
        return self.scoped([self.identifier()])

    def scoped(self, parts):
        while self.take("::"):
            parts.append(self.identifier())
        return ("name", parts)

    def item(self):
        return self.need("string")[1:-1].encode() if self.next_is("string") else self.expression()

    # ---- Statements.

    def label(self):
        """The label at the line's start, if there is one."""
        if self.take(":"):
            return [("unnamed",)]
        if self.next_is("name") and self.tokens[-2] == ("sign", ":"):
            cheap = self.tokens[-1][1][0] == "@"
            word = self.need("name") if cheap else self.identifier()
            self.take(":")
            return [("cheap" if cheap else "label", word)]
        return []

    def statements(self):
        found = self.label()
        if not self.next_is("end"):
            found.append(self.statement())
        self.need("end")
        return found

    def statement(self):
        if self.tokens[-2] in (("sign", "="), ("sign", ":=")):
            name = self.identifier()
            self.take("=", ":=")
            return ("constant", name, self.expression())
        word = self.need("name").lower()
        return ("instruction", word, *self.operand()) if word in MNEMONICS else self.directive(word)

    def operand(self):
        """The form of an operand as it is written, the prefix before it, and its expression."""
        if self.next_is("end"):
            return ("implied", None, None)
        if self.next_is("name", "a"):
            self.need("name")
            return ("accumulator", None, None)
        if self.take("#"):
            return ("immediate", None, self.expression())
        if self.take("("):
            inner = self.expression()
            if self.take(","):
                self.need("name", "x")
                self.need("sign", ")")
                return ("indirect_x", None, inner)
            self.need("sign", ")")
            if self.take(","):
                self.need("name", "y")
                return ("indirect_y", None, inner)
            return ("indirect", None, inner)
        prefix = self.need("prefix")[0].lower() if self.next_is("prefix") else None
        inner = self.expression()
        index = "_" + self.need("name", "x", "y").lower() if self.take(",") else ""
        return (index, prefix, inner)

    def directive(self, word):
        if word in DATA:
            return ("data", DATA[word], self.listed(self.item))
        if word == ".asciiz":
            return ("data", "byte", [self.item(), 0])
        if word in (".res", ".align"):
            return (word[1:], *self.listed(self.expression), None)[:3]
        if word in SEGMENTS:
            return ("segment", SEGMENTS[word], None)
        if word in LISTS:
            return (LISTS[word], self.listed(self.identifier))
        if word in ALONE:
            return (ALONE[word],)
        if word in (".scope", ".proc"):
            return (word[1:], None if self.next_is("end") else self.identifier())
        if word == ".segment":
            name = self.need("string")[1:-1]
            return ("segment", name, self.need("name", "zeropage", "absolute") if self.take(":") else None)
        if word == ".assert":
            condition = self.expression()
            self.need("sign", ",")
            action = self.need("name", "warning", "error").lower()
            text = self.need("string") if self.take(",") else ""
            return ("assert", condition, action, text)
        if word in (".out", ".warning"):
            return ("nothing", self.need("string"))
        raise NotRead(word)


def statements(text):
    """The statements of a source."""
    return [it for line in text.replace("\r\n", "\n").split("\n") for it in Line(line).statements()]
