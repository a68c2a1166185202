"""Conditions that ask `.defined`, `.blank` and the like, as those of bin65."""
import re
from dataclasses import dataclass
from typing import Dict, List, Optional, Sequence

from work65.frontend import words
from work65.frontend.edits import text_of_tokens
from work65.frontend.statements import Statement, statement_in
from work65.frontend.tokens import Kind, Token
from work65.porting.context import Context, OpenCondition
from work65.porting.line import Unportable, replaced
from work65.porting.logical import Logical

ANDS, ORS, NOTS = frozenset(("&&", ".and")), frozenset(("||", ".or")), frozenset(("!", ".not"))
ASKING = {".defined": ".ifdef", ".def": ".ifdef", ".blank": ".ifblank"}
OPPOSITE = {".ifdef": ".ifndef", ".ifndef": ".ifdef", ".ifblank": ".ifnblank", ".ifnblank": ".ifblank"}
CONSTANT = {".ifconst": "", ".ifnconst": "!"}
PROCESSORS = {".ifp02": 1, ".ifpc02": 0, ".ifpsc02": 0, ".ifp816": 0, ".ifp4510": 0}


@dataclass(frozen=True)
class Question:
    """A part of a condition: how bin65 asks it."""

    asked: str


def asks(tokens: Sequence[Token]) -> bool:
    """Returns whether a condition has a function that bin65 asks by a directive."""
    return any(it.lower in ASKING for it in tokens)


def alternatives(lines: Sequence[Logical]) -> Dict[int, List[str]]:
    """Returns the .elseif and .else of each condition, by the line that opens it."""
    found: Dict[int, List[str]] = {}
    opened: List[int] = []
    for place, (_, text) in enumerate(lines):
        if "." not in text:
            continue
        head = statement_in(text).head
        if head in words.CONDITIONS:
            opened.append(place)
            found[place] = []
        elif head == ".endif" and opened:
            opened.pop()
        elif head in (".else", ".elseif") and opened:
            found[opened[-1]].append(head)
    return found


def as_function(text: str, statement: Statement) -> str:
    """Returns an .ifconst or .ifnconst as an .if of the function; any other line as it is."""
    if statement.head not in CONSTANT or not statement.rest:
        return text
    first, last = statement.body[0], statement.body[-1]
    return f"{text[: first.start]}.if {CONSTANT[statement.head]}.const({text_of_tokens(text, statement.rest)}){text[last.end :]}"


def opened(text: str, statement: Statement, context: Context, others: Sequence[str], unique: str) -> List[str]:
    """Returns the line of a condition."""
    head = statement.head
    if head in PROCESSORS:
        context.blocks.append(OpenCondition())
        return replaced(text, statement, [f".if {PROCESSORS[head]}"])
    if head != ".if" or not asks(statement.rest):
        context.blocks.append(OpenCondition())
        return [text]
    parts = conjunction(text, statement.rest)
    if parts is not None and (len(parts) == 1 or not others):
        context.blocks.append(OpenCondition(len(parts)))
        return replaced(text, statement, [it.asked for it in parts])
    context.blocks.append(OpenCondition())
    lines, asked = counted(text, statement.rest, context, unique)
    return replaced(text, statement, [*lines, f".if {asked}"])


def otherwise(text: str, statement: Statement, context: Context, unique: str) -> List[str]:
    """Returns the line of an .elseif."""
    if not asks(statement.rest):
        return [text]
    if not context.blocks:
        raise Unportable(".elseif", "defined")
    parts = conjunction(text, statement.rest)
    context.blocks[-1].ends += 1
    if parts is not None and len(parts) == 1:
        return replaced(text, statement, [".else", parts[0].asked])
    lines, asked = counted(text, statement.rest, context, unique)
    return replaced(text, statement, [".else", *lines, f".if {asked}"])


def closed(text: str, statement: Statement, context: Context) -> List[str]:
    """Returns the line of an .endif."""
    ends = context.blocks.pop().ends if context.blocks else 1
    return [text] if ends == 1 else replaced(text, statement, [".endif"] * ends)


def conjunction(text: str, tokens: Sequence[Token]) -> Optional[List[Question]]:
    """Returns the parts of a condition that all have to hold; None where it has another form."""
    tokens = _bare(tokens)
    parts = _split(tokens, ANDS)
    if len(parts) > 1 and not any(len(_split(it, ORS)) > 1 for it in parts):
        found: List[Question] = []
        for it in parts:
            inner = conjunction(text, it)
            if inner is None:
                return None
            found += inner
        return found
    if len(_split(tokens, ORS)) > 1:
        return None
    atom = _atom(text, tokens)
    if atom is not None:
        return [Question(atom)]
    if tokens and tokens[0].lower in NOTS:
        inner_tokens = _bare(tokens[1:])
        either = _split(inner_tokens, ORS)
        if len(either) > 1 and len(_split(inner_tokens, ANDS)) == 1:
            negated = [_negated(text, it) for it in either]
            return None if None in negated else [it for it in negated if it is not None]
        negation = _negated(text, tokens[1:])
        if negation is not None:
            return [negation]
    return None if asks(tokens) else [Question(f".if {text_of_tokens(text, tokens)}")]


def _negated(text: str, tokens: Sequence[Token]) -> Optional[Question]:
    atom = _atom(text, _bare(tokens))
    if atom is None:
        return None
    word, _, rest = atom.partition(" ")
    return Question(f"{OPPOSITE[word]} {rest}")


def _bare(tokens: Sequence[Token]) -> Sequence[Token]:
    """Returns tokens without parentheses round the whole."""
    while len(tokens) > 1 and tokens[0].text == "(" and _closing(tokens, 0) == len(tokens) - 1:
        tokens = tokens[1:-1]
    return tokens


def _closing(tokens: Sequence[Token], at: int) -> int:
    """Returns where the parenthesis is closed that opens here."""
    depth = 0
    for place in range(at, len(tokens)):
        depth += (tokens[place].text == "(") - (tokens[place].text == ")")
        if depth == 0:
            return place
    return len(tokens)


def _split(tokens: Sequence[Token], signs: "frozenset[str]") -> List[Sequence[Token]]:
    """Returns the parts between operators outside parentheses."""
    found: List[Sequence[Token]] = []
    begin = depth = 0
    for at, it in enumerate(tokens):
        depth += (it.text in "({") - (it.text in ")}")
        if depth == 0 and it.lower in signs:
            found.append(tokens[begin:at])
            begin = at + 1
    return [*found, tokens[begin:]]


def _atom(text: str, tokens: Sequence[Token]) -> Optional[str]:
    """Returns a call of one function as the directive that asks it; None where it is something else."""
    if len(tokens) < 3 or tokens[0].lower not in ASKING or tokens[1].text != "(" or _closing(tokens, 1) != len(tokens) - 1:
        return None
    inner = tokens[2:-1]
    if len(inner) > 1 and inner[0].text == "{" and inner[-1].text == "}":
        inner = inner[1:-1]
    if tokens[0].lower != ".blank" and any(it.kind is Kind.CHEAP for it in inner):
        raise Unportable(inner[0].text, "local-cheap")
    return f"{ASKING[tokens[0].lower]} {text_of_tokens(text, inner)}".rstrip()


def counted(text: str, tokens: Sequence[Token], context: Context, unique: str) -> "tuple[List[str], str]":
    """Returns an expression with a constant for each function: lines that define them, and the expression."""
    if context.repeats or (context.macro is None and context.scopes and not context.path[-1]):
        raise Unportable(tokens[0].text, "defined", "within a .repeat: write it out")
    lines: List[str] = []
    asked, at, number = "", 0, 0
    end = tokens[0].start
    while at < len(tokens):
        it = tokens[at]
        asked += text[end : it.start]
        if it.lower in ASKING and at + 1 < len(tokens):
            close = _closing(tokens, at + 1)
            atom = _atom(text, tokens[at : close + 1])
            if atom is None:
                raise Unportable(it.text, "defined")
            number += 1
            name = f"is_{re.sub(r'[^0-9A-Za-z]', '_', unique)}_{number}"
            if context.macro is not None:
                lines.append(f".local {name}")
            lines += [atom, f"{name} = 1", ".else", f"{name} = 0", ".endif"]
            asked, at, end = asked + name, close + 1, tokens[close].end
        else:
            asked, at, end = asked + it.text, at + 1, it.end
    return lines, asked
