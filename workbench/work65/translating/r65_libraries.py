"""Libraries of bin65 (docs/FORMATS.md): the writer, and a reader of the index."""
import struct
from typing import Iterable, Iterator, List, NamedTuple, Tuple

from work65.problem import Problem

HEAD = b"R65l\x01"
COUNT, RECORD = struct.Struct("<I"), struct.Struct("<BH")
IMPORT, EXPORT = 1, 6
MOST_IN_NAME = 255


class Entry(NamedTuple):
    """A member in the index: its name, where its object is, and its exports and imports."""

    name: str
    start: int
    size: int
    exports: Tuple[str, ...]
    imports: Tuple[str, ...]


def names_of(data: bytes) -> Tuple[List[bytes], List[bytes]]:
    """Returns the exports and the imports of an object, in its order."""
    exports, imports, at = [], [], 5
    unpack = RECORD.unpack_from
    while at < len(data):
        kind, length = unpack(data, at)
        at += 3
        if kind == IMPORT:
            imports.append(data[at : at + length])
        elif kind == EXPORT:
            exports.append(data[at + 1 : at + 1 + data[at]])
        at += length
    return exports, imports


def member_name(name: str, library: str) -> bytes:
    """Returns the bytes of a member's name."""
    found = name.encode("utf-8", "backslashreplace")
    is_bad = name in (".", "..") or any(it in "/\x7f" or it < " " for it in name)
    if is_bad or not 1 <= len(found) <= MOST_IN_NAME:
        what = "a member has a name that bin65's libraries can't hold"
        raise Problem(f"{library}: {what}: {name[:40]!a}")
    return found


def counted(names: List[bytes]) -> bytes:
    """Returns the bytes of a list of exports or imports."""
    return COUNT.pack(len(names)) + b"".join(b"%c%b" % (len(it), it) for it in names)


def write_library(members: Iterable[Tuple[str, bytes]], library: str) -> bytes:
    """Returns the bytes of a library of objects, each with its name, in this order."""
    index, objects, known = [], [], set()
    for name, data in members:
        word = member_name(name, library)
        if word in known:
            raise Problem(f"{library}: a second member {name}")
        known.add(word)
        exports, imports = names_of(data)
        facts = COUNT.pack(len(data)) + counted(exports) + counted(imports)
        index.append(b"%c%b%b" % (len(word), word, facts))
        objects.append(data)
    return b"".join((HEAD, COUNT.pack(len(index)), *index, *objects))


def read_names(data: bytes, at: int) -> Tuple[Tuple[str, ...], int]:
    """Reads a list of exports or imports. Returns it and the offset after it."""
    count, at = COUNT.unpack_from(data, at)[0], at + 4
    found = []
    for _ in range(count):
        end = at + 1 + data[at]
        found.append(data[at + 1 : end].decode("ascii"))
        at = end
    return tuple(found), at


def read_index(data: bytes) -> Iterator[Entry]:
    """Yields the entries of a library that write_library() has made."""
    heads, at = [], 9
    for _ in range(COUNT.unpack_from(data, 5)[0]):
        end = at + 1 + data[at]
        name, size = data[at + 1 : end].decode(), COUNT.unpack_from(data, end)[0]
        exports, at = read_names(data, end + 4)
        imports, at = read_names(data, at)
        heads.append((name, size, exports, imports))
    for name, size, exports, imports in heads:
        yield Entry(name, at, size, exports, imports)
        at += size
