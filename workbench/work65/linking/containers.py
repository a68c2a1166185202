"""Containers around the bytes of areas: load files of Atari's system, blocks with addresses."""
from typing import List, Mapping, NamedTuple, Sequence

from work65.linking.config import Atari
from work65.problem import Problem

# Where a load file puts the address of the program's start, and of a routine to call.
START, CALL = 0x2E0, 0x2E2
HEAD = b"\xff\xff"


class Piece(NamedTuple):
    """Bytes of an area, their address, and whether they begin with a gap before a segment."""

    area: str
    address: int
    data: bytes
    has_gap: bool = False


def atari(pieces: Sequence[Piece], wanted: Atari, numbers: Mapping[str, int]) -> bytes:
    """Returns a load file. Bytes of an area that follow each other in memory are one block. An
    area's last block is only there without bytes if none of another area follows."""
    calls = dict(wanted.calls)
    found: List[Piece] = []
    for at, it in enumerate(pieces):
        last = found[-1] if found else None
        if last and last.area == it.area and last.address + len(last.data) == it.address:
            found[-1] = last._replace(data=last.data + it.data)
        else:
            found = _with(found, it)
        is_last = at + 1 == len(pieces) or pieces[at + 1].area != it.area
        if is_last and it.area in calls and any(one.data for one in found if one.area == it.area):
            found = _with(found, _address(CALL, calls[it.area], numbers))
    if wanted.start:
        found = _with(found, _address(START, wanted.start, numbers))
    return (HEAD if pieces else b"") + b"".join(map(_block, found))


def _with(blocks: List[Piece], it: Piece) -> List[Piece]:
    """Returns blocks with one more. It takes the place of an empty one of another area, and so it
    does within an area if it begins with a gap."""
    is_other = it.has_gap or bool(blocks) and blocks[-1].area != it.area
    is_replaced = is_other and blocks and not blocks[-1].data
    return (blocks[:-1] if is_replaced else blocks) + [it]


def _address(place: int, name: str, numbers: Mapping[str, int]) -> Piece:
    """Returns the block that puts the address of a name in its place."""
    if name not in numbers:
        raise Problem(f"{name}, which FORMATS names, isn't defined")
    return Piece("", place, _word(numbers[name]))


def _word(number: int) -> bytes:
    """Returns a number as two bytes."""
    return (number & 0xFFFF).to_bytes(2, "little")


def _block(it: Piece) -> bytes:
    """Returns a block with its first and its last address."""
    return _word(it.address) + _word(it.address + len(it.data) - 1) + it.data
