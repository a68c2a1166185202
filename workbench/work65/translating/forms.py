"""Forms of bin65's objects, in their normal form: bin65 refuses an object whose forms could be
folded."""
import operator
from typing import Callable, Dict

from work65.formats.objects import Form, Import, Operation, Place

# The codes of prefixes, which have one part, and of operators, which have two.
NEGATED, COMPLEMENT, LOW, HIGH, THIRD, OPPOSITE = range(0x10, 0x16)
TIMES, DIVIDED, REMAINDER, AND, EXCLUSIVE, LEFT, RIGHT, PLUS, MINUS, OR = range(0x20, 0x2A)
EQUAL, UNEQUAL, LESS, GREATER, AT_MOST, AT_LEAST, BOTH, ONE_OF_TWO, EITHER = range(0x2A, 0x33)
# How many numbers, addresses, imports and operations a form may have.
MOST_NODES = 255
TOO_LONG = f"an expression of more than {MOST_NODES} numbers, names and operations"


class NoValue(Exception):
    """Why an operation on numbers has no value."""


def wrapped(value: int) -> int:
    """Returns the number of 64 bits in two's complement."""
    return (value + (1 << 63)) % (1 << 64) - (1 << 63)


def quotient(left: int, right: int) -> int:
    """Divides, and drops the fraction."""
    if right == 0:
        raise NoValue("a division by zero")
    found = abs(left) // abs(right)
    return found if (left < 0) == (right < 0) else -found


def count(value: int) -> int:
    """Returns how far a value is shifted."""
    if not 0 <= value <= 63:
        raise NoValue("a shift by less than 0 or more than 63")
    return value


def prefix_value(code: int, value: int) -> int:
    """Returns the value of a prefix and a number."""
    if code == NEGATED:
        return wrapped(-value)
    if code == COMPLEMENT:
        return ~value
    if code == OPPOSITE:
        return int(value == 0)
    return value >> 8 * (code - LOW) & 0xFF


OPERATORS: Dict[int, Callable[[int, int], int]] = {
    TIMES: operator.mul, DIVIDED: quotient,
    REMAINDER: lambda left, right: left - right * quotient(left, right),
    AND: operator.and_, EXCLUSIVE: operator.xor, OR: operator.or_,
    LEFT: lambda left, right: left << count(right), RIGHT: lambda left, right: left >> count(right),
    PLUS: operator.add, MINUS: operator.sub,
    EQUAL: operator.eq, UNEQUAL: operator.ne, LESS: operator.lt, GREATER: operator.gt,
    AT_MOST: operator.le, AT_LEAST: operator.ge,
    BOTH: lambda left, right: left != 0 and right != 0,
    EITHER: lambda left, right: left != 0 or right != 0,
    ONE_OF_TWO: lambda left, right: (left != 0) != (right != 0),
}  # fmt: skip


def prefixed(code: int, part: Form) -> Form:
    """Returns the form of a prefix and its part."""
    return prefix_value(code, part) if isinstance(part, int) else Operation(code, (part,))


def joined(code: int, left: Form, right: Form) -> Form:
    """Returns the form of an operator and its parts."""
    if isinstance(right, int):
        if isinstance(left, int):
            return wrapped(int(OPERATORS[code](left, right)))
        if isinstance(left, Place) and code in (PLUS, MINUS):
            return Place(left.section, wrapped(left.offset + (right if code == PLUS else -right)))
    elif isinstance(right, Place):
        if isinstance(left, int) and code == PLUS:
            return Place(right.section, wrapped(right.offset + left))
        if isinstance(left, Place) and code == MINUS and left.section == right.section:
            return wrapped(left.offset - right.offset)
    return Operation(code, (left, right))


def node_count(form: Form) -> int:
    """Returns how many numbers, addresses, imports and operations a form has."""
    return 1 + sum(map(node_count, form.parts)) if isinstance(form, Operation) else 1
