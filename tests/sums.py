#!/usr/bin/env python3
"""Tests random scripts whose areas have sums as start and size: the program's placement of areas and rows, read from its map, is compared with
that of the model of scripts (reference/scripts.py), and so is the reason of a rejection.

usage: sums.py BIN65 [SEED [SCRIPTS]]. The last line is 'N passed, M failed'."""

import os
import random
import subprocess
import sys
import tempfile

from reference.scripts import Script
from reference.sources import Refused

SCRIPTS = 300
# The segments that the object has, with their sizes; no module has T.
SIZES = {"P": 3, "Q": 5, "S": 1}
ROWS = [*SIZES, "T"]
AREAS = ["A", "B", "C", "D", "P"]
EXPORTS = {"e": 3, "f": 0x40, "top": 0xFFFFFFFF}
# Numbers of terms, most of them small.
NUMBERS = ["0", "1", "2", "$10", "$20", "$30", "$100", "$1000", "$FFFFFFFF"]


def record(kind, body):
    return bytes([kind]) + len(body).to_bytes(2, "little") + body


def object_file():
    parts = [record(2, size.to_bytes(4, "little") + b"\0" + name.encode()) for name, size in SIZES.items()]
    parts += [record(3, bytes(size)) for size in SIZES.values()]
    return b"R65o\1" + b"".join(parts) + record(8, b"")


class Text:
    """A script under construction: the names of its areas, in MEMORY order."""

    def __init__(self, chance):
        self.chance = chance
        self.areas = chance.sample(AREAS, chance.randrange(1, 5))
        # Scripts that are rarely refused, and scripts that ask for anything.
        self.is_wild = chance.randrange(3) == 0

    def name(self, place):
        """Returns a name for a sum of the area at an index, mostly one that is known there."""
        chance, before = self.chance, self.areas[:place]
        if self.is_wild and chance.randrange(4) == 0:
            return chance.choice(["nobody", "soft", "wanted", "A", "__A_RUN__", "__T_LAST__", "__SIZE__", "__e_SIZE__"])
        if self.is_wild:
            before = self.areas
        if before and chance.randrange(2):
            return f"__{chance.choice(before)}_{chance.choice(['START', 'SIZE', 'LAST', 'LAST'])}__"
        if before and chance.randrange(2):
            return f"__{chance.choice(ROWS)}_{chance.choice(['RUN', 'LOAD', 'SIZE'])}__"
        return chance.choice(list(EXPORTS)) if self.is_wild else chance.choice(["e", "f", "__S_SIZE__"])

    def term(self, place):
        if self.chance.randrange(2):
            return self.chance.choice(NUMBERS if self.is_wild else NUMBERS[:-1])
        return self.name(place)

    def sum(self, place):
        chance = self.chance
        terms = [self.term(place)]
        for _ in range(chance.choice([0, 0, 1, 1, 2, 4])):
            terms += [chance.choice("+++-" if self.is_wild else "++++++-"), self.term(place)]
        return chance.choice([" ", ""]).join(terms) if self.is_wild else " ".join(terms)

    def area(self, place):
        start, size = f"start = {self.sum(place)}", f"size = {self.sum(place)}"
        if not self.is_wild or self.chance.randrange(2):
            size += f" + ${self.chance.choice(['10', '40', '200'])}"
        if self.areas[place] in size and self.chance.randrange(2):
            size = f"size = __{self.areas[place]}_START__ + $20"
        parts = [start, size] if self.chance.randrange(2) else [size, start]
        define = ", define = yes" if self.chance.randrange(2) else ""
        return f"    {self.areas[place]}: {', '.join(parts)}, file = \"\"{define};"

    def row(self, name):
        chance = self.chance
        load, run = chance.choice(self.areas), chance.choice(self.areas)
        parts = [f"load = {load}", f"run = {run}" if chance.randrange(2) else "", chance.choice(["", "align = 4"])]
        parts.append(chance.choice(["", "", "", "offset = 8", "start = $40"]) if self.is_wild else "")
        define = "define = yes" if name not in self.areas and chance.randrange(2) else ""
        return f"    {name}: {', '.join(it for it in [*parts, define] if it)};"

    def text(self):
        rows = [it for it in ROWS if not self.is_wild or self.chance.randrange(12)]
        self.chance.shuffle(rows)
        lines = ["MEMORY {", *(self.area(at) for at in range(len(self.areas))), "}"]
        lines += ["SEGMENTS {", *map(self.row, rows), "}", "SYMBOLS {"]
        lines += [f"    {name}: type = export, value = {value};" for name, value in EXPORTS.items()]
        lines += ["    soft: type = weak, value = 7;", "}"]
        return "\n".join(lines) + "\n"


def wanted(text):
    """Returns the expected lines of the map after SEGMENTS, or the reason of a rejection."""
    try:
        script = Script(text)
        script.place(SIZES)
    except Refused as why:
        return str(why)
    rows = [f"{name} {it.run:08X} {it.load:08X} {it.size:08X}" for name, it in script.rows.items()]
    values = [f"{name} {value:016X}" for name, value in [*script.names(), *script.weak.items()]]
    return [*rows, "SYMBOLS", *values]


def found(program, text):
    """Returns the program's lines of the map after SEGMENTS, or the reason of a rejection."""
    with open("s.cfg", "w", encoding="ascii") as it:
        it.write(text)
    ran = subprocess.run([program, "ld65", "-C", "s.cfg", "-m", "map", "a.o"], capture_output=True)
    if ran.returncode:
        said = ran.stderr.decode()
        return said.partition("Error: ")[2].rstrip("\n") if said.count("\n") == 1 else said
    with open("map", encoding="ascii") as it:
        return it.read().splitlines()[len(SIZES) + 3 :]


def main():
    program, seed = os.path.abspath(sys.argv[1]), sys.argv[2] if len(sys.argv) > 2 else "1"
    scripts = int(sys.argv[3]) if len(sys.argv) > 3 else SCRIPTS
    passed = failed = refused = 0
    with tempfile.TemporaryDirectory(prefix="sums-") as folder:
        os.chdir(folder)
        with open("a.o", "wb") as it:
            it.write(object_file())
        for at in range(scripts):
            text = Text(random.Random(f"{seed}.{at}")).text()
            want, got = wanted(text), found(program, text)
            refused += isinstance(want, str)
            passed, failed = passed + (want == got), failed + (want != got)
            if want != got:
                print(f"script {seed}.{at}: the model says {want}, the program {got}\n{text}")
        os.chdir("/")
    print(f"{passed + failed} scripts, of which {refused} are refused")
    print(f"{passed} passed, {failed} failed")
    return failed > 0 or passed < scripts


if __name__ == "__main__":
    sys.exit(main())
