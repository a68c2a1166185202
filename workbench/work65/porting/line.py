"""Rewriting of a line: several statements in place of one, or a comment."""
from typing import List, Sequence

from work65.frontend.edits import text_of_tokens
from work65.frontend.statements import Statement
from work65.frontend.tokens import Token, line_of


class Unportable(Exception):
    """A line that can't be converted: the word, the name of the habit, and what to do if that isn't the habit's cure."""

    def __init__(self, word: str, habit: str, note: str = "") -> None:
        super().__init__(word)
        self.word, self.habit, self.note = word, habit, note


def in_parentheses(text: str, tokens: Sequence[Token]) -> str:
    """Returns an expression as an operand, in parentheses if it has more than one token."""
    whole = text_of_tokens(text, tokens)
    return whole if len(tokens) == 1 else f"({whole})"


def replaced(text: str, statement: Statement, statements: Sequence[str]) -> List[str]:
    """Returns the lines for other statements in place of a line's own. Label and comment stay with the first."""
    body = statement.body
    start = body[0].start if body else len(text)
    comment = line_of(text).comment
    end = body[-1].end if body else start
    indent = " " * len(text[:start].expandtabs(8)) if text[:start].strip() else text[:start]
    if not statements:
        return [text[:start] + text[comment:]]
    first = text[:start] + statements[0] + text[end:]
    return [first.rstrip() if comment >= len(text) else first, *(indent + it for it in statements[1:])]


def commented_out(text: str) -> str:
    """Returns a line as a comment."""
    return "; " + text.lstrip() if text.strip() and not text.lstrip().startswith(";") else text
