"""Makes objects and libraries as cc65's tools write them, from Python values: for tests that need expressions which cc65's assembler
never writes, and for machines without cc65.

An expression is a number, ("import", index), ("section", index), or (code, part) and (code, part, part) with cc65's code."""
import struct

TABLES = 11
# A list of lines: the first one, which is line 7 of the source.
LINE = b"\1\0"
OPTIONS, FILES, SECTIONS, IMPORTS, EXPORTS, DEBUG_SYMBOLS, LINES, STRINGS, ASSERTIONS, SCOPES, SPANS = range(TABLES)


def number(value):
    """A number: 7 bits a byte, the lowest first, the top bit set where more follow."""
    found = bytearray()
    while value > 0x7F:
        found.append(value & 0x7F | 0x80)
        value >>= 7
    return bytes((*found, value))


def expression(it):
    """The bytes of an expression."""
    if isinstance(it, int):
        return b"\x81" + struct.pack("<i", it)
    if it[0] in ("import", "section"):
        return (b"\x82" if it[0] == "import" else b"\x83") + number(it[1])
    parts = b"".join(map(expression, it[1:]))
    return bytes((it[0],)) + parts + (b"\0" if len(it) == 2 else b"")


class Texts:
    """The table of texts, which grows as they are used."""

    def __init__(self):
        self.known = {b"": 0}

    def __call__(self, text):
        text = text.encode() if isinstance(text, str) else text
        return number(self.known.setdefault(text, len(self.known)))

    def table(self):
        return number(len(self.known)) + b"".join(number(len(it)) + it for it in self.known)


def fragment(it, lines):
    """A fragment: bytes, ("fill", count), or (width, is signed, expression)."""
    if isinstance(it, bytes):
        return b"\x00" + number(len(it)) + it + lines
    if it[0] == "fill":
        return b"\x20" + number(it[1]) + lines
    return bytes((it[0] | (0x10 if it[1] else 0x08),)) + expression(it[2]) + lines


def size_of(it):
    """How many bytes a fragment has."""
    return len(it) if isinstance(it, bytes) else it[1] if it[0] == "fill" else it[0]


def section(texts, it):
    """A section: (name, alignment, fragments). Each fragment is at source line 7."""
    name, alignment, fragments = it
    data = b"".join((texts(name), number(0), number(sum(map(size_of, fragments))), number(alignment), b"\x01" if name == "ZEROPAGE" else b"\x02", number(len(fragments)),
                     *(fragment(part, LINE) for part in fragments)))
    return struct.pack("<I", len(data)) + data


def export(texts, it):
    """An export: (name, expression, [(table, priority), ..])."""
    name, value, condes = it
    table = bytes(kind << 5 | priority - 1 for kind, priority in condes)
    kind, data = (0x80, struct.pack("<I", value % (1 << 32))) if isinstance(value, int) else (0x190, expression(value))
    return b"".join((number(kind | len(condes)), b"\x02", table, texts(name), data, LINE, LINE))


def made_object(sections=(), imports=(), exports=(), assertions=(), source="made.s"):
    """An object. An assertion is (expression, action, text)."""
    texts = Texts()
    tables = [b""] * TABLES
    tables[OPTIONS], tables[DEBUG_SYMBOLS], tables[SCOPES], tables[SPANS] = (number(0),) * 4
    tables[FILES] = number(1) + texts(source) + bytes(4) + number(0)
    tables[SECTIONS] = number(len(sections)) + b"".join(section(texts, it) for it in sections)
    tables[IMPORTS] = number(len(imports)) + b"".join(b"\x02" + texts(it) + LINE + LINE for it in imports)
    tables[EXPORTS] = number(len(exports)) + b"".join(export(texts, it) for it in exports)
    tables[LINES] = number(1) + number(7) + number(1) + number(0) + number(0) + number(0)
    tables[ASSERTIONS] = number(len(assertions)) + b"".join(
        expression(value) + number(action) + texts(text) + LINE for value, action, text in assertions)
    tables[STRINGS] = texts.table()
    return with_head(tables)


def with_head(tables, version=0x11):
    """An object of these tables."""
    at, places = 96, []
    for it in tables:
        places += [at, len(it)]
        at += len(it)
    return struct.pack("<4sHH22I", b"\x55\x7a\x6e\x61", version, 0, *places) + b"".join(tables)


def made_library(members, version=0x0D):
    """A library of (name, object)."""
    at, index, objects = 12, b"", b""
    for name, data in members:
        index += number(len(name)) + name.encode() + struct.pack("<HIII", 1, 0, at, len(data))
        objects, at = objects + data, at + len(data)
    return struct.pack("<4sHHI", b"\x6e\x61\x55\x7a", version, 0, at) + objects + number(len(members)) + index
