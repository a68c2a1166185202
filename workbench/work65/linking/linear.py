"""Sums of a config as bin65 takes them: a number, and names that are added or taken away."""
from typing import Dict, Mapping, Optional, Tuple, Union, cast

from work65.frontend.script_sums import UnknownName, evaluated
from work65.linking.config import Words

Number = Union[int, "Linear"]


class Linear:
    """A sum: a number, and how often each name is in it. It computes as numbers do, and raises a
    ValueError where the result is no sum."""

    def __init__(self, number: int = 0, names: Optional[Mapping[str, int]] = None) -> None:
        self.number = number
        self.names: Dict[str, int] = {it: count for it, count in (names or {}).items() if count}

    def __add__(self, other: Number) -> "Linear":
        more = as_sum(other)
        both = dict(self.names)
        for it, count in more.names.items():
            both[it] = both.get(it, 0) + count
        return Linear(self.number + more.number, both)

    def __mul__(self, other: Number) -> "Linear":
        factor = as_sum(other)
        if self.names and factor.names:
            raise ValueError
        names, count = (self.names, factor.number) if self.names else (factor.names, self.number)
        return Linear(self.number * factor.number, {it: one * count for it, one in names.items()})

    def __floordiv__(self, other: Number) -> "Linear":
        divisor = as_sum(other)
        if self.names or divisor.names:
            raise ValueError
        quotient = abs(self.number) // abs(divisor.number)
        return Linear(quotient if (self.number < 0) == (divisor.number < 0) else -quotient)

    def __neg__(self) -> "Linear":
        return self * -1

    def __sub__(self, other: Number) -> "Linear":
        return self + -as_sum(other)

    def __rsub__(self, other: int) -> "Linear":
        return -self + other

    def __rfloordiv__(self, other: int) -> "Linear":
        return Linear(other) // self

    __radd__, __rmul__ = __add__, __mul__

    def __str__(self) -> str:
        """Returns the sum as a script has it: first a number or a name that is added."""
        added = [it for it, count in self.names.items() for _ in range(count)]
        taken = [it for it, count in self.names.items() for _ in range(-count)]
        if self.number < 0:
            taken.append(f"${-self.number:X}")
        if self.number > 0 or not added:
            added.insert(0, f"${max(self.number, 0):X}")
        return " - ".join([" + ".join(added), *taken])


def as_sum(value: Number) -> Linear:
    """Returns a number as a sum."""
    return Linear(value) if isinstance(value, int) else value


def name(text: str) -> Linear:
    """Returns the sum of one name."""
    return Linear(0, {text: 1})


def read(words: Words, names: Mapping[str, Linear]) -> Tuple[Optional[Linear], str]:
    """Returns a sum of a config; or None, and why bin65 has no such sum."""
    try:
        # The reader of sums only adds, subtracts, multiplies and divides.
        return as_sum(evaluated(words, cast(Mapping[str, Optional[int]], names))), ""
    except UnknownName as unknown:
        return None, f"{unknown} has no value that is known there"
    except ValueError:
        return None, "is no sum that bin65 can compute"
