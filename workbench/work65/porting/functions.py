"""Replaces functions whose value is known at a line: of strings, numbers and structures."""
import re
from typing import Callable, Dict, List, Optional, Sequence, Tuple

from work65.frontend import words
from work65.frontend.edits import edited, text_of_tokens
from work65.frontend.expression import scoped_name, value
from work65.frontend.statements import parts_of
from work65.frontend.tokens import Kind, Token, is_closed, line_of
from work65.porting.characters import content
from work65.porting.context import Context
from work65.porting.line import in_parentheses
from work65.porting.structures import size_named

Part = Sequence[Token]
VERSION = "$0320"
PROCESSORS = {"6502": "2"}


class Folder:
    """Replaces functions of one line, the innermost first."""

    def __init__(self, context: Context, sized: Callable[[str], Optional[str]], is_defined: Callable[[str], Optional[bool]],
                 bank: Callable[[str], Optional[int]]) -> None:
        self.context = context
        self.bank = bank
        self.sized = sized
        self.is_defined = is_defined
        self.is_asked = self.is_in_braces = self.is_in_first_list = self.is_operand = False
        self.calls: Dict[str, Callable[[str, List[Part]], Optional[str]]] = {
            ".sizeof": self.sizeof, ".strlen": self.strlen, ".strat": self.strat, ".concat": self.concat, ".string": self.string,
            ".sprintf": self.sprintf, ".ident": self.ident, ".min": self.least, ".max": self.least, ".loword": self.word,
            ".hiword": self.word, ".defined": self.defined, ".def": self.defined, ".match": self.match, ".xmatch": self.match,
            ".tcount": self.count, ".left": self.some, ".right": self.some, ".mid": self.some, ".blank": self.blank, ".const": self.const,
            ".bank": self.bank_of,
        }
        self.name = ""

    def folded(self, text: str, directives: "frozenset[str]", is_asked: bool) -> str:
        """Returns a line with its functions replaced, if their values are known; a condition tests itself whether names are defined."""
        self.is_asked = is_asked
        if ".version" in directives or ".cpu" in directives:
            text = self.constants(text)
        if not directives & FUNCTIONS:
            return text
        for _ in range(100):
            new = self.one(text)
            if new is None:
                return text
            text = new
        return text

    def constants(self, text: str) -> str:
        """Replaces `.version` and `.cpu` by numbers."""
        edits = []
        for it in line_of(text, self.has_escapes).tokens:
            if it.lower == ".version":
                edits.append((it.start, it.end, VERSION))
            elif it.lower == ".cpu" and self.context.processor in PROCESSORS:
                edits.append((it.start, it.end, PROCESSORS[self.context.processor]))
        return edited(text, edits)

    @property
    def has_escapes(self) -> bool:
        return "string_escapes" in self.context.features

    def one(self, text: str) -> Optional[str]:
        """Returns a line with the last function replaced that can be."""
        tokens = line_of(text, self.has_escapes).tokens
        for at in range(len(tokens) - 1, -1, -1):
            call = self.calls.get(tokens[at].lower)
            if call is None or at + 1 >= len(tokens):
                continue
            end, parts = _called(tokens, at)
            if end is None:
                continue
            self.name = tokens[at].lower
            before = [it.text for it in tokens[:at]]
            self.is_in_braces = before.count("{") > before.count("}")
            self.is_operand = at > 0 and tokens[at - 1].lower in words.MNEMONICS
            self.is_in_first_list = _is_in_first_list(tokens[:at])
            new = call(text, parts)
            if new is not None:
                return edited(text, [(tokens[at].start, tokens[end].end, new)])
        return None

    def text(self, part: Part) -> Optional[str]:
        """Returns the characters of a part that is a string."""
        if len(part) == 1 and part[0].kind is Kind.STRING and is_closed(part[0]):
            return content(part[0], self.has_escapes)
        return None

    def number(self, part: Part) -> Optional[int]:
        """Returns the value of a part that is the same in every assembly."""
        return value(part, self.context.certain)

    def sizeof(self, text: str, parts: List[Part]) -> Optional[str]:
        """Returns the size of a structure, or the constant that has a label's."""
        if len(parts) != 1 or not parts[0]:
            return None
        name, at = scoped_name(parts[0], 0)
        if at != len(parts[0]):
            return None
        size = size_named(name, self.context)
        if size is None:
            return self.sized(name)
        whole = f"{name}::{self.context.size_name}"
        return whole if self.context.value(whole) == size else str(size)

    def strlen(self, text: str, parts: List[Part]) -> Optional[str]:
        """Returns how many characters a string has."""
        found = self.text(parts[0]) if len(parts) == 1 else None
        return None if found is None else str(len(found))

    def strat(self, text: str, parts: List[Part]) -> Optional[str]:
        """Returns the code of one character of a string."""
        found = self.text(parts[0]) if len(parts) == 2 else None
        at = self.number(parts[1]) if len(parts) == 2 else None
        if found is None or at is None or not 0 <= at < len(found):
            return None
        return f"${self.context.charmap.of(found[at])[0]:02X}"

    def concat(self, text: str, parts: List[Part]) -> Optional[str]:
        """Returns strings as one."""
        found = [self.text(it) for it in parts]
        return None if None in found else _quoted("".join(it for it in found if it is not None))

    def string(self, text: str, parts: List[Part]) -> Optional[str]:
        """Returns a name or a number as a string."""
        if len(parts) != 1 or not parts[0]:
            return None
        name, at = scoped_name(parts[0], 0)
        if name and at == len(parts[0]):
            return _quoted(name) if name not in self.context.parameters else None
        number = self.number(parts[0])
        return None if number is None else _quoted(str(number))

    def sprintf(self, text: str, parts: List[Part]) -> Optional[str]:
        """Returns a string with values put in."""
        form = self.text(parts[0]) if parts else None
        if form is None:
            return None
        values: List[object] = []
        for it in parts[1:]:
            found = self.text(it)
            number = None if found is not None else self.number(it)
            if found is None and number is None:
                return None
            values.append(found if found is not None else number)
        if re.search(r"%[^%dsxXcou0-9.\-]|%[0-9.-]*[0-9]{4}", form):
            return None
        try:
            return _quoted(re.sub("%([0-9.-]*)u", r"%\1d", form) % tuple(_unsigned(form, values)))
        except (TypeError, ValueError):
            return None

    def ident(self, text: str, parts: List[Part]) -> Optional[str]:
        """Returns the name that a string spells."""
        found = self.text(parts[0]) if len(parts) == 1 else None
        return found if found and re.fullmatch(r"@?[A-Za-z_]\w*(::[A-Za-z_]\w*)*", found, re.A) else None

    def least(self, text: str, parts: List[Part]) -> Optional[str]:
        """Returns the less or the greater of two numbers."""
        found = [self.number(it) for it in parts]
        if len(found) != 2 or found[0] is None or found[1] is None:
            return None
        return str(min(found[0], found[1]) if self.name == ".min" else max(found[0], found[1]))

    def defined(self, text: str, parts: List[Part]) -> Optional[str]:
        """Returns whether a name that targets define is there."""
        is_name = len(parts) == 1 and len(parts[0]) == 1 and not self.is_asked
        known = self.is_defined(parts[0][0].text) if is_name else None
        return None if known is None else str(int(known))

    def const(self, text: str, parts: List[Part]) -> Optional[str]:
        """Returns whether an expression is constant, where that is sure: numbers and constants are, and a label of this scope alone isn't."""
        if len(parts) != 1 or self.has_open(parts):
            return None
        if value(parts[0], self.context.certain) is not None:
            return "1"
        key = self.context.path + (parts[0][0].text,) if len(parts[0]) == 1 else ()
        return "0" if self.context.labels.get(key) and key not in self.context.constants else None

    def match(self, text: str, parts: List[Part]) -> Optional[str]:
        """Returns whether two lists of tokens have the same kinds."""
        if len(parts) != 2 or any(it.text in self.context.parameters or it.kind is Kind.DIRECTIVE for part in parts for it in part):
            return None
        one, other = ([_kind_of(it, self.name == ".xmatch") for it in part if it.text not in "{}"] for part in parts)
        return str(int(one == other))

    def bank_of(self, text: str, parts: List[Part]) -> Optional[str]:
        """Returns the bank of the area that contains an address."""
        part = parts[0] if len(parts) == 1 else ()
        names = [at for at, it in enumerate(part) if it.kind is Kind.NAME or it.text == "*"]
        if not names or self.has_open(parts):
            return None
        name, end = scoped_name(part, names[0] - (names[0] > 0 and part[names[0] - 1].text == "::"))
        if part[names[0]].text == "*":
            name, end = "*", names[0] + 1
        if any(it.kind is not Kind.NUMBER and it.text not in "+-" for it in part[end:]) or names[0] > 1:
            return None
        found = self.bank(name)
        return None if found is None else str(found)

    def has_open(self, parts: List[Part]) -> bool:
        """Returns whether tokens aren't yet what they will be."""
        return any(it.text in self.context.parameters or it.lower in FUNCTIONS for part in parts for it in part)

    def some(self, text: str, parts: List[Part]) -> Optional[str]:
        """Returns some tokens of a list. A comma among them ends the first list of .match in cc65, if no braces are around it: that stays."""
        if len(parts) < 2 or self.has_open(parts[-1:]):
            return None
        numbers = [self.number(it) for it in parts[:-1]]
        tokens = parts[-1]
        if any(it is None for it in numbers) or len(numbers) != (2 if self.name == ".mid" else 1):
            return None
        known = [it for it in numbers if it is not None]
        if self.name == ".left":
            tokens = tokens[: known[0]]
        elif self.name == ".right":
            tokens = tokens[max(0, len(tokens) - known[0]) :]
        else:
            tokens = tokens[known[0] : known[0] + known[1]]
        found = text_of_tokens(text, tokens)
        texts = [it.text for it in tokens]
        if self.is_in_first_list and not self.is_in_braces and "," in texts:
            return None
        is_whole = "," not in texts and texts.count("(") == texts.count(")")
        return found if is_whole or self.is_in_braces else "{" + found + "}"

    def blank(self, text: str, parts: List[Part]) -> Optional[str]:
        """Returns whether a list has no tokens."""
        if self.is_asked or self.has_open(parts):
            return None
        return str(int(not any(parts)))

    def count(self, text: str, parts: List[Part]) -> Optional[str]:
        """Returns how many tokens a list has."""
        if any(it.text in self.context.parameters or it.kind is Kind.DIRECTIVE for part in parts for it in part):
            return None
        return str(sum(map(len, parts)) + max(0, len(parts) - 1))

    def word(self, text: str, parts: List[Part]) -> Optional[str]:
        """Returns the lower or upper sixteen bits. An operand doesn't begin with a parenthesis, which would make it an indirect one."""
        if len(parts) != 1 or not parts[0]:
            return None
        inner = in_parentheses(text, parts[0])
        half = f"({inner} & $FFFF)" if self.name == ".loword" else f"({inner} >> 16 & $FFFF)"
        return f"0 + {half}" if self.is_operand else half


FUNCTIONS = frozenset(
    (".sizeof", ".strlen", ".strat", ".concat", ".string", ".sprintf", ".ident", ".min", ".max", ".loword", ".hiword",
     ".defined", ".def", ".match", ".xmatch", ".tcount",
     ".left", ".right", ".mid", ".blank", ".const", ".bank")
)


def _kind_of(it: Token, is_exact: bool) -> Tuple[str, str]:
    """Returns what .match compares of a token, and .xmatch."""
    if it.kind is Kind.NAME:
        is_register = it.lower in words.REGISTERS
        return ("register", it.lower) if is_register else ("name", it.text if is_exact else "")
    if it.kind is Kind.NUMBER or it.kind is Kind.CHARACTER and is_closed(it):
        number = value((it,), lambda _: None)
        return it.kind.value, str(number) if is_exact and number is not None else it.text if is_exact else ""
    if it.kind is Kind.UNNAMED:
        return it.kind.value, ""
    if it.kind in (Kind.STRING, Kind.CHARACTER, Kind.CHEAP):
        return it.kind.value, it.text if is_exact else ""
    return it.kind.value, it.lower


def _unsigned(form: str, values: List[object]) -> List[object]:
    """Returns the values for a form, with those of 64 bits that it shows without a sign. For ca65 `%x` has one."""
    kinds = [it[-1] for it in re.findall(r"%[0-9.-]*[a-zA-Z]", form.replace("%%", ""))]
    return [it & (1 << 64) - 1 if isinstance(it, int) and kind in "Xou" else it for it, kind in zip(values, kinds)]


def _quoted(text: str) -> Optional[str]:
    return None if '"' in text or "\n" in text else f'"{text}"'


def _called(tokens: Sequence[Token], at: int) -> "tuple[Optional[int], List[Part]]":
    """Returns the index after the call of a function, and its arguments. Without parentheses it has one token."""
    if tokens[at + 1].text != "(":
        return None, []
    depth = braces = 0
    for end in range(at + 1, len(tokens)):
        braces += (tokens[end].text == "{") - (tokens[end].text == "}")
        if braces == 0:
            depth += (tokens[end].text == "(") - (tokens[end].text == ")")
        if depth == 0:
            parts = parts_of(tokens[at + 2 : end])
            return end, [_unbraced(it) for it in parts]
    return None, []


def _is_in_first_list(before: Sequence[Token]) -> bool:
    """Returns whether tokens end in the first list of .match or .xmatch, within no other call."""
    depth = 0
    for at in range(len(before) - 1, -1, -1):
        depth += (before[at].text in (")", "}")) - (before[at].text in ("(", "{"))
        if depth < 0:
            return at > 0 and before[at].text == "(" and before[at - 1].lower in (".match", ".xmatch")
        if depth == 0 and before[at].text == ",":
            return False
    return False


def _unbraced(part: Part) -> Part:
    return part[1:-1] if len(part) > 1 and part[0].text == "{" and part[-1].text == "}" else part

