"""Sources of a library in member order: the values of --library, NAME=FOLDER or NAME=FILE,FILE,.."""
import os
import struct
from typing import Dict, List, Optional, Tuple

from work65.frontend.files import read_bytes
from work65.problem import Problem
from work65.program import Program

OWN, CC65 = b"R65l", b"naUz"


def sources_of(word: str, program: Program) -> List[str]:
    """Returns the sources of a library. Those of a folder are in the order of the library's members if the library exists, else
    sorted by name. Raises a Problem if there are none."""
    name, _, given = word.partition("=")
    if not name or not given:
        raise Problem(f"--library: expected NAME=FOLDER or NAME=FILE,FILE, not {word}", 2)
    if not os.path.isdir(given):
        return _listed(given)
    sources = sorted(it for it in os.listdir(given) if it.endswith((".s", ".asm")))
    if not sources:
        raise Problem(f"{given}: not a folder of sources")
    members = _members(name, given, program)
    if members is not None:
        sources = _ordered(members, sources, name, given)
    return [os.path.join(given, it) for it in sources]


def _listed(given: str) -> List[str]:
    """Returns the files of a comma-separated list."""
    files = given.split(",")
    if len(files) == 1 and not given.endswith((".s", ".asm")):
        raise Problem(f"{given}: not a folder of sources")
    for it in files:
        if not os.path.isfile(it):
            raise Problem(f"{it}: no such source")
    return files


def _members(name: str, folder: str, program: Program) -> Optional[List[str]]:
    """Returns the member names of the library, looked for by its name and in the folder of its sources. None if it doesn't exist."""
    for place in (name, os.path.join(folder, os.path.basename(name))):
        if os.path.isfile(place):
            data = read_bytes(place)
            if data[:4] == OWN:
                return _members_of_own(place, program)
            if data[:4] == CC65:
                return _members_of_cc65(place, data)
    return None


def _members_of_own(place: str, program: Program) -> List[str]:
    """Returns the member names of a bin65 library."""
    ran = program.run(["ar65", "t", place])
    if ran.status:
        raise Problem(os.fsdecode(ran.err).strip())
    return os.fsdecode(ran.out).splitlines()


def _members_of_cc65(place: str, data: bytes) -> List[str]:
    """Reads the member names of a cc65 library. Its index is a count, then a name and 14 bytes for each member."""
    try:
        at = struct.unpack_from("<I", data, 8)[0]
        count, at = _variable(data, at)
        found = []
        for _ in range(count):
            length, at = _variable(data, at)
            found.append(os.fsdecode(data[at : at + length]))
            at += length + 14
        return found
    except (struct.error, IndexError):
        raise Problem(f"{place}: not a library that can be read") from None


def _variable(data: bytes, at: int) -> Tuple[int, int]:
    """Decodes a number of seven bits per byte, low bits first. Returns it and the offset after it."""
    value = shift = 0
    while True:
        byte = data[at]
        at += 1
        value |= (byte & 127) << shift
        shift += 7
        if byte < 128:
            return value, at


def _ordered(members: List[str], sources: List[str], name: str, folder: str) -> List[str]:
    """Returns the source of each member, in member order. Raises a Problem if one has none."""
    by_stem: Dict[str, str] = {os.path.splitext(it)[0]: it for it in sources}
    found = []
    for member in members:
        source = by_stem.get(os.path.splitext(member)[0])
        if source is None:
            raise Problem(f"{folder} has no source of {name}'s member {member}")
        found.append(source)
    return found
