"""Random changes of objects, libraries, scripts and sources: of any bytes, and changes that keep the file's form."""

import re

# The maximum length of a mutated input; the rest is cut.
MOST = 16384

NUMBERS = (0, 1, 2, 5, 127, 128, 255, 256, 4095, 4096, 4097, 65535, 65536, 2**24 - 1, 2**24, 2**24 + 1, 2**31 - 1, 2**31, 2**32 - 1, 2**63)
TOKEN = re.compile(rb'"[^"\n]*"|\.?[A-Za-z_@][A-Za-z0-9_]*|\$?[0-9A-Fa-f]+|[ \t]+|\n|.', re.DOTALL)


def slice_of(rng, file, longest=64):
    begin = rng.randrange(len(file) + 1)
    return begin, min(len(file), begin + rng.randrange(1, longest + 1))


def change_bytes(rng, file, _other):
    file = bytearray(file)
    for _ in range(rng.randrange(1, 5)):
        if file:
            file[rng.randrange(len(file))] = rng.choice((0, 1, 2, 8, 0x20, 0x7F, 0x80, 0xFF, rng.randrange(256)))
    return bytes(file)


def change_bit(rng, file, _other):
    if not file:
        return file
    at = rng.randrange(len(file))
    return file[:at] + bytes([file[at] ^ 1 << rng.randrange(8)]) + file[at + 1 :]


def change_number(rng, file, _other):
    """Changes a number to one above 4 bytes, or to one of 8."""
    at, size = rng.randrange(len(file) + 1), rng.choice((1, 2, 4, 4, 8))
    return file[:at] + (rng.choice(NUMBERS) % 256**size).to_bytes(size, "little") + file[at + size :]


def cut(rng, file, _other):
    return file[: rng.randrange(len(file) + 1)]


def drop(rng, file, _other):
    begin, end = slice_of(rng, file)
    return file[:begin] + file[end:]


def repeat(rng, file, _other):
    begin, end = slice_of(rng, file)
    return file[:end] + file[begin:end] * rng.choice((1, 1, 2, 50)) + file[end:]


def splice(rng, file, other):
    return file[: rng.randrange(len(file) + 1)] + other[rng.randrange(len(other) + 1) :]


def insert(rng, file, other):
    (begin, end), at = slice_of(rng, other), rng.randrange(len(file) + 1)
    return file[:at] + other[begin:end] + file[at:]


def number_text(rng):
    return rng.choice((b"%d", b"$%X", b"$%X", b"-%d")) % (rng.choice(NUMBERS) if rng.random() < 0.5 else rng.randrange(300))


def expression_text(rng, names, depth=3):
    """Returns an expression of numbers and of a source's names."""
    if depth == 0 or rng.random() < 0.3:
        return rng.choice((number_text(rng), rng.choice(names), b"*", b":+", b":-"))
    way = rng.random()
    if way < 0.3:
        return rng.choice((b"<", b">", b"^", b"-", b"~", b"!")) + expression_text(rng, names, depth - 1)
    if way < 0.5:
        return b"(" + expression_text(rng, names, depth - 1) + b")"
    operator = rng.choice((b"+", b"-", b"*", b"/", b"&", b"|", b"^", b"<<", b">>", b"=", b"<>", b"<", b">=", b"&&", b"||", b" .mod ", b" .xor "))
    return expression_text(rng, names, depth - 1) + operator + expression_text(rng, names, depth - 1)


def form_bytes(rng, depth=3):
    """Returns the bytes of a form, mostly one that can't be folded: literals, sections and imports with small numbers, and operations on them."""
    way = rng.random()
    if depth == 0 or way < 0.3:
        if rng.random() < 0.3:
            return b"\0" + (rng.choice(NUMBERS) if rng.random() < 0.5 else rng.randrange(300)).to_bytes(8, "little")
        if rng.random() < 0.5:
            return b"\1" + rng.choice((0, 0, 1, 2)).to_bytes(4, "little") + rng.choice((0, 1, 3, 255, 2**64 - 1)).to_bytes(8, "little")
        return b"\2" + rng.choice((0, 0, 1, 2)).to_bytes(4, "little")
    if way < 0.5:
        return bytes([rng.randrange(0x10, 0x16)]) + form_bytes(rng, depth - 1)
    return bytes([rng.randrange(0x20, 0x33)]) + form_bytes(rng, depth - 1) + form_bytes(rng, depth - 1)


def with_form(rng, head, record):
    """Returns a VALUE, EXPORT or ASSERT record with another form, for an object with this head."""
    body, place = record[3:], 8 if head[4:] == b"\2" else 4
    text = body[1 + place] if len(body) > 1 + place else 0
    behind = {5: 1 + place, 6: 1 + place + body[0] if body else 0, 7: 2 + place + text}[record[0]]
    body = body[:behind] + form_bytes(rng)
    return record[:1] + len(body).to_bytes(2, "little") + body


def records_of(file):
    """Returns the records of an object. The first is its head."""
    parts, at = [file[:5]], 5
    while at < len(file):
        end = at + 3 + int.from_bytes(file[at + 1 : at + 3], "little")
        parts.append(file[at:end])
        at = end
    return parts


def change_records(rng, file, other):
    """Moves, drops, repeats, replaces and changes records of an object."""
    parts, others = records_of(file), records_of(other)
    at, way = rng.randrange(len(parts)), rng.randrange(8)
    alike = [it for it in others if it[:1] == parts[at][:1]]
    formed = [at for at, it in enumerate(parts) if it[:1] in (b"\5", b"\6", b"\7")]
    if way < 3 and formed:
        at = rng.choice(formed)
        parts[at] = with_form(rng, parts[0], parts[at])
    elif way < 4:
        parts[at] = rng.choice(alike or others)
    elif way < 5:
        parts.insert(at, rng.choice(alike or others))
    elif way < 6:
        parts[at] = rng.choice((b"", parts[at] * 2))
    else:
        parts[at] = parts[at][:3] + change_number(rng, parts[at][3:], b"")[: len(parts[at]) - 3]
    return b"".join(parts)


def names_of(file):
    return re.findall(rb"[A-Za-z_@][A-Za-z0-9_]*", file) or [b"n"]


def change_tokens(rng, file, other):
    """Replaces, drops and repeats tokens of a text, mostly by others of the same kind."""
    parts, others = TOKEN.findall(file), TOKEN.findall(other)
    if not parts or not others:
        return other
    at, way = rng.randrange(len(parts)), rng.randrange(8)
    operands = [at for at, it in enumerate(parts) if it[:1].isdigit() or it[:1] == b"$"]
    if way < 3 and operands:
        at = rng.choice(operands)
        parts[at] = number_text(rng) if rng.random() < 0.5 else expression_text(rng, names_of(file))
    elif way < 6:
        alike = [it for it in others if it[:1].isalpha() == parts[at][:1].isalpha() and it[:1] in b".@" == parts[at][:1] in b".@"]
        parts[at] = rng.choice(alike or others)
    else:
        parts[at] = rng.choice((b"", parts[at] * 2, parts[at] * 40, rng.choice(others) + parts[at]))
    return b"".join(parts)


def change_lines(rng, file, other):
    """Moves, drops, repeats and replaces lines of a text, and parts of lines between commas and semicolons."""
    mark = rng.choice((b"\n", b"\n", b";", b","))
    parts, others = file.split(mark), other.split(mark)
    at, where, way = rng.randrange(len(parts)), rng.randrange(len(parts)), rng.randrange(5)
    if way == 0:
        parts[at] = rng.choice(others)
    elif way == 1:
        parts.insert(at, rng.choice(others))
    elif way == 2:
        del parts[at]
    elif way == 3:
        parts.insert(where, parts[at])
    else:
        parts[at], parts[where] = parts[where], parts[at]
    return mark.join(parts)


class Cut(Exception):
    pass


def index_of(library):
    """Returns the offsets of the members' sizes, the sizes, and the end of the index of a valid library."""
    at, found = 9, []

    def number():
        nonlocal at
        at += 4
        return int.from_bytes(library[at - 4 : at], "little")

    for _ in range(int.from_bytes(library[5:9], "little")):
        if at >= len(library):
            raise Cut
        at += 1 + library[at]
        found.append((at, number()))
        for _ in range(2):
            for _ in range(number()):
                if at >= len(library):
                    raise Cut
                at += 1 + library[at]
    return found, at


def change_member(rng, library, other):
    """Changes a member of a library and its size in the index."""
    try:
        index, end = index_of(library)
    except Cut:
        return library
    if not index:
        return other
    number = rng.randrange(len(index))
    begin = end + sum(size for _, size in index[:number])
    place, size = index[number]
    member = change_records(rng, library[begin : begin + size], library[begin : begin + size])
    front = library[:place] + len(member).to_bytes(4, "little") + library[place + 4 : begin]
    return front + member + library[begin + size :]


CHANGES = (change_bytes, change_bit, change_number, cut, drop, repeat, splice, insert)
OWN = {
    "object": (change_records,),
    "library": (change_member, change_number),
    "script": (change_tokens, change_lines),
    "source": (change_tokens, change_lines),
}


def changed(rng, kind, file, other):
    """Returns a file after one to three changes, most of which keep its form."""
    for _ in range(rng.choice((1, 1, 1, 1, 2, 3))):
        file = rng.choice(OWN[kind] if rng.random() < 0.7 else CHANGES)(rng, file, other)
    # Nothing is written outside the folder.
    return file[:MOST].replace(b"/", b"_") if kind == "script" else file[:MOST]
