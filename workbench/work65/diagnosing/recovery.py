"""Removes a rejected line from a copy, so that the lines after it can be checked."""
from typing import AbstractSet, List, Set, Tuple

from work65.frontend import words
from work65.frontend.statements import Statement, block_length, statement_in
from work65.frontend.tokens import Kind

BLOCKS = {".struct": ".endstruct", ".union": ".endunion", ".enum": ".endenum"}
CLOSING = {
    ".proc": ".endproc", ".scope": ".endscope", ".repeat": ".endrepeat", ".macro": ".endmacro", ".mac": ".endmacro",
    **{it: ".endif" for it in words.CONDITIONS},
}
SHORT = {".endmac": ".endmacro", ".endrep": ".endrepeat"}
INSIDE = "macro inside macro"
TWICE = ("defined twice", "scope defined twice", "macro defined twice")


def span_of(lines: List[str], line: int, said: str = "") -> Tuple[int, int]:
    """Returns the indices of the first and last line to remove with a rejected one: a whole structure, repeat or macro."""
    head = statement_in(lines[line]).head
    if head in BLOCKS:
        return line, line + _distance(lines[line + 1 :], BLOCKS.keys(), frozenset(BLOCKS.values()))
    if head in words.MACRO_BEGINS and said != INSIDE:
        return line, line + _distance(lines[line + 1 :], words.MACRO_BEGINS, words.MACRO_ENDS)
    if head in words.REPEAT_ENDS:
        return line - _distance(lines[:line][::-1], words.REPEAT_ENDS, words.REPEAT_BEGINS), line
    return line, line


def _distance(lines: List[str], begins: AbstractSet[str], ends: AbstractSet[str]) -> int:
    """Returns the number of the line that ends a block, counted from its first line, 0 if none does."""
    length = block_length((head_of(it) for it in lines), begins, ends)
    return 0 if length is None else length + 1


def head_of(line: str) -> str:
    """Returns the directive of a line, empty if it has none."""
    return statement_in(line).head if "." in line else ""


def closers_of(lines: List[str], is_scope: bool) -> List[str]:
    """Returns the lines that close the open scopes, or all other open blocks, at the end of a file, the innermost first."""
    found: List[str] = []
    for it in lines:
        head = head_of(it)
        if head in CLOSING and (head in (".proc", ".scope")) == is_scope:
            found.append(CLOSING[head])
        elif found and (head == found[-1] or head in SHORT and SHORT[head] == found[-1]):
            found.pop()
    return found[::-1]


def left(line: str) -> str:
    """Returns the rest of a removed line: its label and the opening of a block."""
    statement = statement_in(line)
    label = ""
    if statement.label is not None and statement.label.lower not in words.MNEMONICS | words.REGISTERS:
        name = statement.label.text
        usable = statement.label.kind is not Kind.CHEAP or not name[1:2].isdigit()
        label = (":" if name == ":" else f"{name}:") if usable else ""
    head = statement.head
    if head in words.CONDITIONS:
        return f"{label} .if 1"
    if head == ".elseif":
        return ".else"
    if head == ".repeat":
        return f"{label} .repeat 1"
    return label


def without_definition(line: str, name: str, other: str) -> str:
    """Removes the definition of a name from a line: its label, or its name for another one. Returns the line itself if it doesn't define
    the name."""
    statement = statement_in(line)
    if statement.label is not None and statement.label.text == name:
        return line[statement.body[0].start :] if statement.body else ""
    rest = statement.rest
    if statement.head in (".proc", ".scope", *words.MACRO_BEGINS) and rest and (rest[0].text == name or not name):
        return f"{line[: rest[0].start]}{other}{line[rest[0].end :]}"
    return line


def names_of(lines: List[str], first: int, last: int) -> Set[str]:
    """Returns the names that removed lines would have defined."""
    found: Set[str] = set()
    for at in range(first, last + 1):
        statement = statement_in(lines[at])
        if first != last:
            found |= {it.text for it in statement.body[:1] if it.kind is Kind.NAME}
            found |= defined_by(statement)
        else:
            found |= defined_by(statement) - ({statement.label.text} if statement.label is not None and left(lines[at]) else set())
        if statement.head in words.CONDITIONS or statement.head in (".elseif", ".else"):
            found |= _in_branches(lines, at)
    return found


def defined_by(statement: Statement) -> Set[str]:
    """Returns the names that a statement may define, with its label."""
    found: Set[str] = set()
    tokens = statement.body
    if len(tokens) > 1 and tokens[0].kind is Kind.NAME and tokens[1].lower in ("=", ":=", ".set"):
        found.add(tokens[0].text)
    if statement.head in (".define", ".macro", ".mac", ".proc", ".scope", ".local", *BLOCKS, *words.LISTS):
        found |= {it.text.rstrip(":") for it in statement.rest if it.kind in (Kind.NAME, Kind.PREFIX)}
    if statement.head == ".macpack":
        found |= words.PACKAGES.get(statement.rest[0].lower if statement.rest else "", frozenset())
    if statement.label is not None:
        found.add(statement.label.text)
    return found


def _in_branches(lines: List[str], line: int) -> Set[str]:
    """Returns the names that lines define between a condition and its .endif. Without the condition, one of its branches is missing."""
    following = [statement_in(it) for it in lines[line + 1 :]]
    length = block_length((it.head for it in following), words.CONDITIONS, frozenset((".endif",)))
    return set().union(*map(defined_by, following[:length]))
