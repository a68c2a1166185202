"""Sums of linker scripts, as cc65's linker evaluates them."""
from typing import Mapping, Optional, Sequence

from work65.frontend.scripts import Word


class UnknownName(ValueError):
    """A name in a sum without a value."""


def accepted_number(text: str) -> str:
    """Returns a number in a form that bin65 accepts: decimal, or hexadecimal after `$`. A text that is no number stays as it is."""
    if text[:2].lower() == "0x":
        return "$" + text[2:]
    if text[0] == "%":
        return f"${int(text[1:], 2):02X}" if len(text) > 1 and set(text[1:]) <= {"0", "1"} else text
    return f"${int(text[:-1]) * 1024:04X}" if text[-1] in "kK" and text[:-1].isdigit() else text


def number_of(text: str) -> int:
    """Returns the value of a number. Raises a ValueError if the text is none."""
    text = accepted_number(text)
    return int(text[1:], 16) if text.startswith("$") else int(text)


def evaluated(value: Sequence[Word], names: Mapping[str, Optional[int]]) -> int:
    """Returns the value of a sum. Raises UnknownName for a name without a value, and else a ValueError if it is no sum."""
    reader = _SumReader(value, names)
    try:
        found = reader.sum()
    except (IndexError, ZeroDivisionError):
        raise ValueError from None
    if reader.at != len(value):
        raise ValueError
    return found


def value_of(value: Sequence[Word], names: Mapping[str, Optional[int]]) -> Optional[int]:
    """Returns the value of a sum, None if it has none."""
    try:
        return evaluated(value, names)
    except ValueError:
        return None


def _quotient(one: int, other: int) -> int:
    """Returns a quotient as C has it, rounded to 0."""
    return -(-one // other) if isinstance(other, int) and isinstance(one, int) and (one < 0) != (other < 0) else one // other


class _SumReader:
    """Reads a sum from the left."""

    def __init__(self, value: Sequence[Word], names: Mapping[str, Optional[int]]) -> None:
        self.value, self.names, self.at = value, names, 0

    def is_at(self, *texts: str) -> bool:
        """Returns whether the next token is one of these."""
        return self.at < len(self.value) and self.value[self.at].text in texts

    def sum(self) -> int:
        """Reads a sum of products."""
        found = self.product()
        while self.is_at("+", "-"):
            self.at += 1
            found = found + self.product() if self.value[self.at - 1].text == "+" else found - self.product()
        return found

    def product(self) -> int:
        """Reads a product of factors."""
        found = self.factor()
        while self.is_at("*", "/"):
            self.at += 1
            found = found * self.factor() if self.value[self.at - 1].text == "*" else _quotient(found, self.factor())
        return found

    def factor(self) -> int:
        """Reads a number, a name, or a sum in parentheses."""
        word = self.value[self.at]
        self.at += 1
        if word.text == "-":
            return -self.factor()
        if word.text == "+":
            return self.factor()
        if word.text == "(":
            found = self.sum()
            if not self.is_at(")"):
                raise ValueError
            self.at += 1
            return found
        if word.kind == "word":
            known = self.names.get(word.text)
            if known is None:
                raise UnknownName(word.text)
            return known
        return number_of(word.text)
