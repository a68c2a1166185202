#!/usr/bin/env python3
"""Tests the real program with large inputs: a source of more than 100,000 lines with 5,000 imports, 1,000 sections of 4 MB and 1 MB of text for
each stream; its link without the imports, by a script of 2,000 areas and 21,000 rows, into an image of 4 MB with 1 MB of warnings; a script
of 10,000 areas and rows, each area placed after the one before; and a library of 2,000 members. The results are compared with values
computed here.

usage: large.py BIN65    Prints a line for each test; the last line is 'N passed, M failed'.
"""

import os
import shutil
import subprocess
import sys
import tempfile
import time

SECTIONS = 1000
IMPORTS = 5000
AREAS = 2000
ABSENT_ROWS = 20000
MEMBERS = 2000
CHAINED = 10000
AREA_SIZE = 4400
# Lines of data in a section, values of four bytes in a line, texts for each stream in a section.
LINES, VALUES, TEXTS = 98, 11, 5


def value(section, line, place):
    return (section * 2654435761 + line * 40503 + place * 12582917) % 2**32


def data(section):
    """Returns the bytes of a section's data."""
    values = (value(section, line, place) for line in range(LINES) for place in range(VALUES))
    return b"".join(it.to_bytes(4, "little") for it in values)


def record(kind, body):
    return bytes([kind]) + len(body).to_bytes(2, "little") + body


def literals(piece):
    return b"".join(record(3, piece[at : at + 4096]) for at in range(0, len(piece), 4096))


class Source:
    """A source under construction, with its expected messages and the values of its imports."""

    def __init__(self, with_imports):
        self.lines, self.out, self.err = [], [], []
        self.used = {section: [] for section in range(SECTIONS)}
        self.with_imports = with_imports
        if with_imports:
            for first in range(0, IMPORTS, 10):
                self.lines.append(".import " + ", ".join(f"v{at}" for at in range(first, first + 10)))
        for section in range(SECTIONS):
            self.add_section(section)

    def add_section(self, section):
        self.lines.append(f'.segment "S{section}"')
        for line in range(LINES):
            self.lines.append(".dword " + ",".join(str(value(section, line, place)) for place in range(VALUES)))
        if self.with_imports:
            for at in range(5):
                # The last import is used first.
                name = IMPORTS - 1 - (section * 5 + at)
                self.lines.append(f".word v{name}")
                self.used[section].append(len(self.lines))
        for at in range(TEXTS):
            text = f"{section}.{at} ".ljust(210, "abc"[at % 3])
            self.lines.append(f'.out "{text}"')
            self.out.append(text)
            self.lines.append(f'.warning "{text}"')
            self.err.append(f"b.s:{len(self.lines)}: Warning: {text}")

    def object(self):
        """Returns the expected bytes of the object."""
        parts = [b"R65o\x02"]
        if self.with_imports:
            parts += [record(9, b"b.s")]
            parts += [record(1, b"v%d" % at) for at in reversed(range(IMPORTS))]
        for section in range(SECTIONS):
            size = LINES * VALUES * 4 + 2 * len(self.used[section])
            parts.append(record(2, size.to_bytes(4, "little") + b"\0S%d" % section))
        number = 0
        for section in range(SECTIONS):
            parts.append(literals(data(section)))
            for line in self.used[section]:
                parts.append(record(5, b"\1" + bytes(4) + line.to_bytes(4, "little") + b"\2" + number.to_bytes(4, "little")))
                number += 1
        return b"".join(parts) + record(8, b"")


def joined(lines):
    return "".join(line + "\n" for line in lines).encode()


def section_of(area):
    """Returns the section whose row is in an area; sections and areas are ordered differently."""
    return area * 7 % SECTIONS


def absent(at):
    return f"X{at:019}"


def script():
    """Returns a script: half of the areas follow each other in the output, with a row each; the others are in another file and have none."""
    parts = ["MEMORY {"]
    for area in range(AREAS // 2):
        parts.append(f"A{area}:start=0,size={AREA_SIZE},fill=yes,fillval={area % 256};")
        parts.append(f'B{area}:start=0,size=64,fill=yes,fillval={area % 255};'.replace(";", ',file="side";'))
    parts.append("} SEGMENTS {")
    parts += [f"S{section_of(area)}:load=A{area};" for area in range(AREAS // 2)]
    parts += [f"{absent(at)}:load=A0;" for at in range(ABSENT_ROWS)]
    text = "\n".join(parts) + "}"
    assert len(text) <= 1048576
    return text


def image():
    areas = range(AREAS // 2)
    return b"".join(data(section_of(area)).ljust(AREA_SIZE, bytes([area % 256])) for area in areas)


def side():
    return b"".join(bytes([area % 255]) * 64 for area in range(AREAS // 2))


def chained():
    """Returns a script of areas that each begin a byte after the area before and have its size, both by name, with a row each."""
    parts = ["MEMORY {A0:start=$1000,size=9;"]
    for at in range(1, CHAINED):
        before = at - 1
        parts.append(f"A{at}:start=__A{before}_START__+1,size=__R{before}_RUN__-__A{before}_LAST__+9"
                     + (",define=yes;" if at == CHAINED - 1 else ";"))
    parts += ["} SEGMENTS {", *(f"R{at}:load=A{at};" for at in range(CHAINED)), "}"]
    text = "\n".join(parts)
    assert len(text) <= 1048576
    return text


def link_chained(tests):
    """Links one byte into the last of the areas."""
    put("s.cfg", chained())
    last = CHAINED - 1
    with open("c.o", "wb") as opened:
        opened.write(b"R65o\1" + record(2, number(1, 4) + b"\0R%d" % last) + literals(b"\xea") + record(8, b""))
    ran = tests.run("ld65", "-C", "s.cfg", "-o", "image", "-m", "map", "c.o")
    warnings = joined(f"ld65: Warning: segment R{at} does not exist" for at in range(last))
    start = 0x1000 + last
    symbols = joined(f"__A{last}_{part}__ {at:016X}" for part, at in (("START", start), ("SIZE", 9), ("LAST", start + 1)))
    said = [("status", ran.returncode, 0), ("out", ran.stdout, b""), ("err", ran.stderr, warnings)]
    found = (get("map") or b"").partition(b"SYMBOLS\n")[2]
    tests.check("10,000 areas, each by the one before", [*said, ("image", get("image"), b"\xea"), ("symbols", found, symbols)])


class Tests:
    def __init__(self, program):
        self.program, self.passed, self.failed = program, 0, 0

    def run(self, *words):
        began = time.monotonic()
        ran = subprocess.run([self.program, *words], stdin=subprocess.DEVNULL, capture_output=True, timeout=600)
        self.took = time.monotonic() - began
        return ran

    def check(self, name, pairs):
        """Compares pairs of what was found and what is expected."""
        wrong = [what for what, found, wanted in pairs if found != wanted]
        self.passed, self.failed = self.passed + (not wrong), self.failed + bool(wrong)
        print(f"{name}: " + (f"FAILED: {', '.join(wrong)} differ" if wrong else f"ok, {self.took:.1f} s"), flush=True)


def get(name):
    if not os.path.exists(name):
        return None
    with open(name, "rb") as opened:
        return opened.read()


def put(name, text):
    with open(name, "w", encoding="ascii") as opened:
        opened.write(text)


def assemble(tests, name, source):
    put("b.s", "\n".join(source.lines))
    ran = tests.run("ca65", "b.s")
    said = [("out", ran.stdout, joined(source.out)), ("err", ran.stderr, joined(source.err))]
    tests.check(name, [("status", ran.returncode, 0), *said, ("object", get("b.o"), source.object())])


def number(value, size):
    return value.to_bytes(size, "little")


def member(at):
    """Returns an object of four bytes that exports a name and imports the next one; every third is of version 1."""
    export, wanted = f"f{at}".encode(), f"f{at + 1}".encode()
    head, place = (b"R65o\2" + record(9, b"m.s"), bytes(4)) if at % 3 else (b"R65o\1", b"")
    section = record(2, number(4, 4) + b"\0CODE") + literals(number(value(at, at, 0), 4))
    exported = record(6, bytes([len(export)]) + export + place + number(1, 4) + b"\0" + number(at, 8))
    return head + record(1, wanted) + section + exported + record(8, b"")


def library(members):
    """Returns the library of these members."""
    index = b"R65l\1" + number(len(members), 4)
    for at in members:
        names = [f"m{at}.o".encode(), f"f{at}".encode(), f"f{at + 1}".encode()]
        name, export, wanted = (bytes([len(it)]) + it for it in names)
        index += name + number(len(member(at)), 4) + number(1, 4) + export + number(1, 4) + wanted
    return index + b"".join(map(member, members))


def keep_library(tests):
    """Adds all members to a library, lists them, deletes every other one, and extracts the rest."""
    files = [f"m{at}.o" for at in range(MEMBERS)]
    for at, name in enumerate(files):
        with open(name, "wb") as opened:
            opened.write(member(at))
    ran = tests.run("ar65", "r", "l.lib", *files)
    tests.check("a library of 2,000 members", [("status", ran.returncode, 0), ("library", get("l.lib"), library(range(MEMBERS)))])
    ran = tests.run("ar65", "t", "l.lib")
    tests.check("its names", [("status", ran.returncode, 0), ("out", ran.stdout, joined(files))])
    ran = tests.run("ar65", "d", "l.lib", *files[::2])
    left = range(1, MEMBERS, 2)
    tests.check("half of them", [("status", ran.returncode, 0), ("library", get("l.lib"), library(left))])
    for name in files:
        os.remove(name)
    ran = tests.run("ar65", "x", "l.lib")
    found = [get(f"m{at}.o") for at in range(MEMBERS)]
    wanted = [member(at) if at % 2 else None for at in range(MEMBERS)]
    tests.check("these as files", [("status", ran.returncode, 0), ("files", found, wanted)])


def main():
    tests = Tests(os.path.abspath(sys.argv[1]))
    folder = tempfile.mkdtemp(prefix="large-")
    os.chdir(folder)
    try:
        source = Source(with_imports=True)
        assert len(source.lines) > 100000 and min(len(joined(source.out)), len(joined(source.err))) > 1000000
        assemble(tests, "a source past all sizes", source)
        assemble(tests, "the same without imports", Source(with_imports=False))
        put("s.cfg", script())
        ran = tests.run("ld65", "-C", "s.cfg", "-o", "image", "b.o")
        warnings = joined(f"ld65: Warning: segment {absent(at)} does not exist" for at in range(ABSENT_ROWS))
        assert len(image()) > 4 * 2**20 and len(warnings) > 1000000
        said = [("status", ran.returncode, 0), ("out", ran.stdout, b""), ("err", ran.stderr, warnings)]
        tests.check("its link", [*said, ("image", get("image"), image()), ("side", get("side"), side())])
        link_chained(tests)
        keep_library(tests)
    finally:
        os.chdir("/")
        shutil.rmtree(folder)
    print(f"{tests.passed} passed, {tests.failed} failed")
    sys.exit(tests.failed != 0)


if __name__ == "__main__":
    main()
