"""Prints objects of either version, as docs/FORMATS.md describes them.

usage: objects.py FILE..    prints a line for each file, import, section, fragment, export and assertion.
"""

import struct
import sys

WIDTHS = ["byte", "word", "dbyt", "dword", "branch"]
LENGTHS = {"byte": 1, "word": 2, "dbyt": 2, "dword": 4, "branch": 1}
PREFIXES = ["-", "~", "<", ">", "^", "!"]
OPERATORS = "* / .mod & ^ << >> + - | = <> < > <= >= && .xor ||".split()
IMPORT, SECTION, LITERAL, FILL, VALUE, EXPORT, ASSERT, END, FILE = range(1, 10)
HEADS = {b"R65o\x01": 1, b"R65o\x02": 2}


class Section:
    """A section: its name, size, alignment and fragments, which are bytes, a number of reserved bytes, or (width, location, form)."""

    def __init__(self, name, size, align):
        self.name, self.size, self.align = name, size, align
        self.fragments, self.left = [], size

    def add(self, fragment, length):
        last = self.fragments[-1] if self.fragments else None
        if isinstance(fragment, bytes) and isinstance(last, bytes):
            self.fragments[-1] = last + fragment
        else:
            self.fragments.append(fragment)
        self.left -= length


class Object:
    """The parts of an object."""

    def __init__(self, file):
        if file[:5] not in HEADS:
            raise ValueError("not an object of version 1 or 2")
        self.version = HEADS[file[:5]]
        self.files, self.imports, self.sections, self.exports, self.asserts = [], [], [], [], []
        at = 5
        kind = 0
        while kind != END:
            kind, length = struct.unpack_from("<BH", file, at)
            body = file[at + 3 : at + 3 + length]
            if len(body) != length:
                raise ValueError("cut short")
            self.take(kind, body)
            at += 3 + length
        if at != len(file) or any(it.left for it in self.sections):
            raise ValueError("bytes behind the end, or a section that isn't full")

    def take(self, kind, body):
        """Adds a record to the parts."""
        if kind == FILE and self.version == 2:
            if self.imports or self.sections or self.exports or self.asserts or text(body) in self.files:
                raise ValueError("a file behind other records, or a second one of its name")
            self.files.append(text(body))
        elif kind == IMPORT:
            self.imports.append(text(body))
        elif kind == SECTION:
            size, power = struct.unpack_from("<IB", body)
            self.sections.append(Section(text(body[5:]), size, 1 << power))
        elif kind == LITERAL:
            self.open_section().add(body, len(body))
        elif kind == FILL:
            (count,) = struct.unpack("<I", body)
            self.open_section().add(count, count)
        elif kind == VALUE:
            width = WIDTHS[body[0]]
            place, behind = self.place(body, 1)
            self.open_section().add((width, place, self.form(body[behind:])), LENGTHS[width])
        elif kind == EXPORT:
            name = text(body[1 : 1 + body[0]])
            place, behind = self.place(body, 1 + body[0])
            self.exports.append((name, place, self.form(body[behind:])))
        elif kind == ASSERT:
            place, at = self.place(body, 1)
            behind = at + 1 + body[at]
            action = ["warning", "error"][body[0]]
            self.asserts.append((action, place, text(body[at + 1 : behind]), self.form(body[behind:])))
        elif kind != END:
            raise ValueError(f"kind {kind}")

    def place(self, body, at):
        """Reads the location at the front of a body: a line, and before it the file in version 2. Returns it and the rest."""
        if self.version == 1:
            return f"line {struct.unpack_from('<I', body, at)[0]}", at + 4
        file, line = struct.unpack_from("<II", body, at)
        return f"{self.files[file]}:{line}", at + 8

    def open_section(self):
        """Returns the first section that isn't full."""
        return next(it for it in self.sections if it.left)

    def form(self, body):
        """Returns a form as text, with an operation in parentheses before its operands."""
        shown, behind = self.part(body, 0)
        if behind != len(body):
            raise ValueError("bytes behind a form")
        return shown

    def part(self, body, at):
        code = body[at]
        if code == 0:
            return str(struct.unpack_from("<q", body, at + 1)[0]), at + 9
        if code == 1:
            section, offset = struct.unpack_from("<Iq", body, at + 1)
            return f"{self.sections[section].name}{offset:+}", at + 13
        if code == 2:
            return self.imports[struct.unpack_from("<I", body, at + 1)[0]], at + 5
        if code < 0x20:
            shown, at = self.part(body, at + 1)
            return f"({PREFIXES[code - 0x10]} {shown})", at
        left, at = self.part(body, at + 1)
        right, at = self.part(body, at)
        return f"({OPERATORS[code - 0x20]} {left} {right})", at


def text(body):
    return body.decode("latin-1")


def shown_fragment(fragment):
    if isinstance(fragment, bytes):
        return "literal " + fragment.hex(" ").upper()
    if isinstance(fragment, int):
        return f"room {fragment}"
    width, place, form = fragment
    return f"{width} of {place}: {form}"


def dump(file):
    """Returns the lines of an object."""
    it = Object(file)
    lines = [f"file {name}" for name in it.files] + [f"import {name}" for name in it.imports]
    for section in it.sections:
        align = f" align {section.align}" if section.align > 1 else ""
        lines.append(f"section {section.name} of {section.size}{align}")
        lines += ["  " + shown_fragment(fragment) for fragment in section.fragments]
    lines += [f"export {name} of {place}: {form}" for name, place, form in it.exports]
    lines += [f'{action} of {place} "{message}": {form}' for action, place, message, form in it.asserts]
    return lines


def cells(section):
    """Returns a section's bytes in hexadecimal, '--' for a reserved byte and '??' for each byte of a value."""
    found = []
    for fragment in section.fragments:
        if isinstance(fragment, bytes):
            found += fragment.hex(" ").upper().split()
        elif isinstance(fragment, int):
            found += ["--"] * fragment
        else:
            found += ["??"] * LENGTHS[fragment[0]]
    return found


if __name__ == "__main__":
    for name in sys.argv[1:]:
        with open(name, "rb") as opened:
            print("\n".join(dump(opened.read())))
