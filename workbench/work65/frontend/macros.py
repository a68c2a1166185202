"""Macro calls: their arguments, and lines with parameters, local names and counters replaced."""
from typing import List, Mapping, Sequence

from work65.frontend.edits import edited, text_of_tokens
from work65.frontend.statements import parts_of
from work65.frontend.tokens import Kind, Token, line_of

COUNT = ".paramcount"


def arguments_of(text: str, tokens: Sequence[Token]) -> List[str]:
    """Returns the arguments of a call, given its line and the tokens after the macro's name, without braces around an argument."""
    return [_unbraced(text, it) for it in parts_of(tokens, has_parentheses=False)]


def _unbraced(text: str, part: Sequence[Token]) -> str:
    """Returns an argument without braces that enclose all of it."""
    depth = 0
    for at, it in enumerate(part):
        depth += (it.text == "{") - (it.text == "}")
        if depth <= 0 and at + 1 < len(part):
            return text_of_tokens(text, part)
    is_enclosed = len(part) > 1 and part[0].text == "{" and part[-1].text == "}"
    return text_of_tokens(text, part[1:-1] if is_enclosed else part)


def given_by(parameters: Sequence[str], arguments: Sequence[str]) -> "dict[str, str]":
    """Returns the text of each parameter, empty for a missing argument, and of `.paramcount`."""
    padded = [*arguments, *[""] * (len(parameters) - len(arguments))]
    return {**dict(zip(parameters, padded)), COUNT: str(len(arguments))}


def substituted(text: str, given: Mapping[str, str], has_escapes: bool = False, is_expanded: bool = False) -> str:
    """Returns a line with names and directives replaced by the texts given for them. Replaced text isn't replaced again."""
    edits = []
    for it in line_of(text, has_escapes, is_expanded).tokens:
        name = it.lower if it.kind is Kind.DIRECTIVE else it.text
        if name in given and it.kind in (Kind.NAME, Kind.CHEAP, Kind.DIRECTIVE):
            edits.append((it.start, it.end, given[name]))
    return edited(text, edits) if edits else text
