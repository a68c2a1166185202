#!/usr/bin/env python3
"""Builds random programs of two modules with bin65 and with cc65's tools: if both link, they must write the same files. docs/MIGRATING.md lists
the constructs for which the files differ.

usage: differences.py BIN65 [PROGRAMS [SEED]]    PROGRAMS random programs (150). The last line is 'N passed, M failed'."""
import collections
import os
import random
import re
import shutil
import subprocess
import sys
import tempfile
from typing import Counter, Dict, List, Sequence, Tuple, Union

from random_expressions import Shared
from random_modules import INCLUDED, Module

PROGRAMS = 150
SCRIPT = """MEMORY {{
    ZP:  start = ${zp:02X}, size = $100 - $70, file = "", define = yes;
    RAM: start = {ram_start}, size = $0800, file = {ram}, define = yes;
    ROM: start = ${rom:04X}, size = {size}{fill}, define = yes;
    TOP: start = $E000, size = $1000, file = {top};
}}
SEGMENTS {{
    ZEROPAGE: load = ZP, type = zp;
    EXTZP:    load = ZP, type = zp, optional = yes;
    CODE:     load = ROM, type = {kind}{code}{value}, define = yes;
{rows}
    BSS:      load = RAM, type = bss{bss}, define = yes;
}}
SYMBOLS {{ top: type = export, value = $FFF0; soft: type = weak, value = {soft}; }}
"""
# The inputs of a link: both modules in any order, or the second one from a library, if the first one needs it.
LINKS = (("m0.o", "m1.o"), ("m1.o", "m0.o"), ("m0.o", "l.lib"))
# Errors of these programs that only bin65 reports, as MIGRATING states.
LISTED = ()
Built = Union[str, Dict[str, bytes]]


def rows(chance: random.Random) -> str:
    """Returns the rows of three segments, in any order."""
    def some(*texts: str) -> str:
        return chance.choice(texts)

    align = [some("", "", ", align = 2", ", align = 8", ", align = 256") for _ in range(3)]
    value = [some("", "", ", fillval = $55") for _ in range(3)]
    found = [
        f"    RODATA:   load = {some('ROM', 'ROM', 'TOP')}, type = ro{some(align[0], align[0], ', offset = $E00')}{value[0]};",
        f"    DATA:     load = ROM, run = RAM, type = rw{align[1]}{some('', ', align_load = 4')}{value[1]}, define = yes;",
        f"    LATE:     load = TOP, type = ro{some(align[2], ', offset = $800', ', start = $E900')}{value[2]}, define = yes,"
        " optional = yes;",
    ]
    chance.shuffle(found)
    return "\n".join(found)


def script(chance: random.Random) -> str:
    """Returns a script."""
    return SCRIPT.format(
        zp=chance.choice((0, 2, 0x10)), ram=chance.choice(('""', '"ram.bin"', '""')),
        ram_start=chance.choice(("$0200", "$0100 + __ZP_LAST__")),
        rom=chance.choice((0x8000, 0x8001, 0x9003)), size=chance.choice(("$4000", "$C000 - $8000")), kind=chance.choice(("ro", "rw")),
        fill=chance.choice(("", ", fill = yes", ", fill = yes, fillval = $FF", ", fillval = $EA")), top=chance.choice(("%O", '"top.bin"')),
        code=chance.choice(("", "", ", align = 4", ", align = 256")), value=chance.choice(("", ", fillval = 1")),
        bss=chance.choice(("", ", align = 16")), rows=rows(chance), soft=chance.choice(("5", "$1234")),
    )


def program(seed: str) -> Tuple[Dict[str, str], Sequence[str]]:
    """Returns the files of a program by name, and the inputs of its link."""
    chance = random.Random(seed)
    shared = Shared()
    for kind, begin, most in ((shared.code, "f", 4), (shared.short, "z", 3), (shared.room, "b", 3), (shared.numbers, "k", 3)):
        for it in range(chance.randrange(most + 1)):
            kind[f"{begin}{it}"] = chance.randrange(2)
    files = {f"m{it}.s": Module(chance, it, shared).text() for it in range(2)}
    return {**files, "s.cfg": script(chance), "both.inc": INCLUDED, "data.bin": "0123456789"}, chance.choice(LINKS)


def built(folder: str, files: Dict[str, str], inputs: Sequence[str], tools: Sequence[str]) -> Built:
    """Builds a program. Returns the files that it writes, or the first error."""
    os.makedirs(folder)
    for name, text in files.items():
        with open(f"{folder}/{name}", "w", encoding="latin-1") as it:
            it.write(text)
    before = {*files, "m0.o", "m1.o", "l.lib"}
    lines = [["ca65", "-DN2=7", "-o", "m0.o", "m0.s"], ["ca65", "-o", "m1.o", "m1.s"], ["ar65", "r", "l.lib", "m1.o"]]
    lines.append(["ld65", "-C", "s.cfg", "-o", "image", *inputs])
    for words in lines:
        ran = subprocess.run([*tools, *words], cwd=folder, capture_output=True, encoding="latin-1", check=False)
        if ran.returncode:
            return next((it for it in ran.stderr.splitlines() if "Error" in it), ran.stderr)
    found: Dict[str, bytes] = {}
    for name in sorted(set(os.listdir(folder)) - before):
        with open(f"{folder}/{name}", "rb") as file:
            found[name] = file.read()
    return found


def kind_of(said: str) -> str:
    """Returns an error without its location and names."""
    return re.sub(r"[a-zN]\d(_\d+)?|'[^']*'|\d+", "N", said.split("Error: ")[-1])


def first_difference(one: Dict[str, bytes], other: Dict[str, bytes]) -> str:
    """Returns the first difference of two sets of files."""
    for name in sorted({*one, *other}):
        mine, others = one.get(name, b""), other.get(name, b"")
        at = next((it for it in range(min(len(mine), len(others))) if mine[it] != others[it]), min(len(mine), len(others)))
        if mine != others:
            return f"{name} at {at:#x}: bin65 {mine[at:at + 8].hex(' ')}, cc65 {others[at:at + 8].hex(' ')}"
    return "none"


class Differences:
    """Builds programs and counts the results."""

    def __init__(self, program: str) -> None:
        self.program = program
        self.counts: Counter[str] = collections.Counter()
        self.wrong: List[str] = []

    def compare(self, seed: str, folder: str) -> None:
        """Builds one program with both tools."""
        files, inputs = program(seed)
        ours, others = built(f"{folder}/ours", files, inputs, [self.program]), built(f"{folder}/cc65", files, inputs, [])
        if isinstance(ours, dict) and isinstance(others, dict):
            self.counts["equal" if ours == others else "different"] += 1
            if ours != others:
                self.wrong.append(f"{seed}: {first_difference(ours, others)}")
        elif isinstance(ours, str) and isinstance(others, str):
            self.counts["refused by both"] += 1
        elif isinstance(ours, str):
            self.counts[f"refused by bin65 alone: {kind_of(ours)}"] += 1
            if not kind_of(ours).startswith(LISTED):
                self.wrong.append(f"{seed}: {ours}")
        else:
            self.counts[f"refused by cc65 alone: {kind_of(str(others))}"] += 1
        shutil.rmtree(f"{folder}/ours")
        shutil.rmtree(f"{folder}/cc65")


def main() -> None:
    program, count = os.path.abspath(sys.argv[1]), int(sys.argv[2]) if len(sys.argv) > 2 else PROGRAMS
    if not all(map(shutil.which, ("ca65", "ld65"))):
        print("cc65 isn't here: nothing is compared\n1 passed, 0 failed")
        return
    found = Differences(program)
    with tempfile.TemporaryDirectory() as folder:
        for number in range(count):
            found.compare(f"{sys.argv[3] if len(sys.argv) > 3 else '1'}.{number}", folder)
    print(*found.wrong[:40], *(f"{times} {kind}" for kind, times in found.counts.most_common()), sep="\n")
    is_telling = found.counts["equal"] * 2 > count
    print(f"{count - len(found.wrong) + is_telling} passed, {len(found.wrong) + (not is_telling)} failed")
    sys.exit(bool(found.wrong) or not is_telling)


if __name__ == "__main__":
    main()
