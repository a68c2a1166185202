"""Recognizes habits by a token, a label, or the form of a statement."""
from typing import AbstractSet, Iterator, Tuple

from work65.frontend import words
from work65.frontend.statements import Statement, is_instruction, parts_of
from work65.frontend.survey import Survey
from work65.frontend.tokens import Kind, Token, is_closed, value_of
from work65.habits.habit import Habit
from work65.habits.table import BY_NAME, BY_WORD

Found = Tuple[str, Habit, str]
PACKAGES = {"longbranch": "longbranch", "generic": "generic", "cpu": "package", "module": "package"}
FUNCTIONS_IN_TEXT = frozenset((".out", ".warning", ".error", ".fatal"))
INDIRECT = frozenset("adc and cmp eor lda ora sbc sta".split())
SIZES = frozenset(("zeropage", "absolute"))


def label(statement: Statement, tree: Survey) -> Iterator[Found]:
    """Yields the habit of a label without its colon."""
    if statement.label is not None and not statement.has_colon:
        yield statement.label.text, BY_NAME["colon"], ""


def token(one: Token) -> Iterator[Tuple[str, str]]:
    """Yields the habits of a token, each with its cure."""
    kind, text = one.kind, one.text
    if kind is Kind.CHEAP and len(text) > 1 and text[1].isdigit():
        yield "digit", f"a cheap label begins with a letter or _: @_{text[1:]}"
    elif kind is Kind.UNNAMED and text[1] in "<>":
        yield "arrows", text.replace("<", "-").replace(">", "+")
    elif kind is Kind.CHARACTER and not is_closed(one):
        yield "quote", ""
    elif kind is Kind.NUMBER and "_" in text:
        yield "underline", f"{text.replace('_', '')}"
    elif kind is Kind.SIGN and text in "[]":
        yield "bracket", ""
    elif kind is Kind.PREFIX and one.lower == "f:":
        yield "far", ""
    elif text == "\\":
        yield "continuation", ""


def habit_of(one: Token, statement: Statement) -> Habit:
    """Returns the habit of a word, by the tokens after it."""
    rest = statement.rest if statement.head == one.lower else ()
    if one.lower == ".define":
        return BY_NAME[_define(rest)]
    if one.lower == ".macpack" and rest:
        return BY_NAME[PACKAGES.get(rest[0].lower, "scrcode")]
    if one.lower == ".feature" and any(it.lower == "string_escapes" for it in rest):
        return BY_NAME["escapes"]
    return BY_WORD[one.lower]


def _define(rest: Tuple[Token, ...]) -> str:
    """Returns the kind of a `.define`."""
    if len(rest) < 2:
        return "define-empty"
    if rest[1].text == "(" and rest[1].start == rest[0].end:
        return "define-parameters"
    is_list = any(it.text == "," or it.kind is Kind.STRING for it in rest[1:])
    return "define-list" if is_list else "define"


def statement(one: Statement, scopes: int, parameters: AbstractSet[str], tree: Survey) -> Iterator[Tuple[str, str]]:
    """Yields the habits of a statement's form."""
    if not one.body:
        return
    head, first = one.head, one.body[0]
    if first.kind is Kind.NAME:
        if head not in words.MNEMONICS:
            yield from _instruction(one, tree)
        elif one.rest:
            yield from _operand(one)
        elif is_newer(one):
            yield first.text, "processor"
    elif first.kind is Kind.CHEAP and one.rest and one.rest[0].text in ("=", ":="):
        yield first.text, "cheap-constant"
    elif head == "::" and len(one.rest) > 1 and one.rest[1].text in ("=", ":="):
        yield f"::{one.rest[0].text}", "global-constant"
    elif head == "*" and one.rest and one.rest[0].text == "=":
        yield "* =", "org"
    elif head in words.LISTS:
        yield from _list(one, scopes)
    elif first.kind is Kind.DIRECTIVE:
        yield from _directive(one)


def _instruction(one: Statement, tree: Survey) -> Iterator[Tuple[str, str]]:
    """Yields the habit of an instruction that isn't of the documented 6502."""
    first = one.body[0]
    if tree.is_macro(first.text) or (one.rest and one.rest[0].text in ("=", ":=")):
        return
    if first.lower in words.UNDOCUMENTED:
        yield first.text, "undocumented"
    elif first.lower in words.OTHER_PROCESSORS and is_instruction(first.lower):
        yield first.text, "processor"


def _operand(one: Statement) -> Iterator[Tuple[str, str]]:
    """Yields the habits of an operand."""
    if one.head == "brk":
        yield "brk", "brk"
    elif is_newer(one):
        yield one.body[0].text, "undocumented" if one.head == "nop" else "processor"
    first = one.rest[0]
    if first.text == "#" and len(one.rest) > 1 and one.rest[1].kind is Kind.STRING:
        yield one.rest[1].text, "string-value"
    for at, it in enumerate(one.rest[:-1]):
        following = one.rest[at + 1]
        if it.text == "::" and at and one.rest[at - 1].lower in ("z", "a") and following.text == ":":
            yield "z:::", "colons"
    texts = [it.text for it in one.rest[:3]]
    if len(texts) > 2 and texts[0].lower() in ("z", "a") and texts[1] == "::" and texts[2] == ":":
        yield "z:::", "colons"


def is_newer(one: Statement) -> bool:
    """Returns whether an instruction of the 6502 has a form that only other processors have."""
    head, texts = one.head, [it.lower for it in one.rest]
    if not texts:
        return head in ("inc", "dec")
    if head == "nop":
        return True
    if head in ("inc", "dec"):
        return texts == ["a"]
    if head == "bit":
        return texts[0] == "#" or texts[-2:] == [",", "x"]
    if head in INDIRECT and texts[0] == "(" and texts[-1] == ")":
        return texts[-3:-1] != [",", "x"]
    return head == "jmp" and texts[0] == "(" and texts[-3:] == [",", "x", ")"]


def _list(one: Statement, scopes: int) -> Iterator[Tuple[str, str]]:
    """Yields the habits of a list of imports or exports."""
    for part in parts_of(one.rest):
        texts = {it.text for it in part}
        if texts & {"=", ":="}:
            yield part[0].text, "export-value"
        elif ":" in texts or any(it.kind is Kind.PREFIX for it in part):
            yield part[0].text, "size-behind"
    if scopes:
        yield one.body[0].text, "in-scope"


def _directive(one: Statement) -> Iterator[Tuple[str, str]]:
    """Yields the habits of a directive that bin65 accepts in other forms."""
    head, rest = one.head, one.rest
    if head == ".asciiz" and len(parts_of(rest)) > 1:
        yield ".asciiz", "asciiz"
    elif head == ".incbin" and len(rest) > 1 and rest[-2].text == "-" and rest[-3].text == ",":
        yield "-1", "incbin"
    elif head == ".align" and rest and len(parts_of(rest)[0]) == 1:
        value = value_of(rest[0].text)
        if value is not None and (value < 1 or value > 32768 or value & (value - 1)):
            yield rest[0].text, "align"
    elif head == ".assert":
        yield from _assert(one)
    elif head == ".segment" and len(rest) > 2 and rest[2].text not in SIZES:
        yield rest[2].text, "size-behind"
    elif head in (".proc", ".scope") and any(it.text == ":" for it in rest):
        yield rest[0].text, "size-behind"
    elif head in (".local", ".ifdef", ".ifndef") and any(it.kind is Kind.CHEAP for it in rest):
        yield next(it.text for it in rest if it.kind is Kind.CHEAP), "local-cheap"
    elif head in (".setcpu", ".p02x"):
        yield from _processor(one)
    elif head in FUNCTIONS_IN_TEXT and (len(rest) != 1 or rest[0].kind is not Kind.STRING):
        yield one.body[0].text, "text"


def _assert(one: Statement) -> Iterator[Tuple[str, str]]:
    """Yields the habit of an assertion's action."""
    parts = parts_of(one.rest)
    if len(parts) > 1 and len(parts[1]) == 1:
        action = parts[1][0]
        if action.lower in ("ldwarning", "lderror"):
            yield action.text, "lderror"
        elif action.lower in ("warning", "error") and action.text != action.lower:
            yield action.text, "capitals"


def _processor(one: Statement) -> Iterator[Tuple[str, str]]:
    """Yields the habit of another processor."""
    if one.head == ".p02x":
        yield ".p02x", "undocumented"
    elif one.rest and one.rest[0].kind is Kind.STRING and one.rest[0].lower != '"6502"':
        yield one.rest[0].text, "undocumented" if one.rest[0].lower == '"6502x"' else "processor"
