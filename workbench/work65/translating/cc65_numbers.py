"""Numbers and texts of cc65's files. A number has 7 bits in each byte, the lowest first; a set top
bit says that more bytes follow."""
from typing import List, Tuple


class Damage(Exception):
    """What is wrong with a file."""


def number(data: bytes, at: int) -> Tuple[int, int]:
    """Reads a number. Returns it and the offset after it."""
    value = data[at]
    if value < 0x80:
        return value, at + 1
    value &= 0x7F
    for shift in (7, 14, 21, 28):
        at += 1
        more = data[at]
        value |= (more & 0x7F) << shift
        if more < 0x80:
            return value, at + 1
    raise Damage("a number is too long")


def past_numbers(data: bytes, at: int) -> int:
    """Returns the offset after a list, which is a count and so many numbers."""
    count = data[at]
    at += 1
    if count >= 0x80:
        count, at = number(data, at - 1)
    while count:
        while data[at] >= 0x80:
            at += 1
        at += 1
        count -= 1
    return at


def strings(data: bytes, at: int, end: int) -> List[bytes]:
    """Reads a table of texts: how many there are, and for each its length and its bytes."""
    count, at = number(data, at)
    found = []
    while count:
        length = data[at]
        at += 1
        if length >= 0x80:
            length, at = number(data, at - 1)
        found.append(data[at : at + length])
        at += length
        count -= 1
        if at > end:
            break
    if at != end:
        raise Damage("a table has another size")
    return found
