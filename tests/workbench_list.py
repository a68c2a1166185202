#!/usr/bin/env python3
"""Tests `work65 list`: each line that emits bytes has the address and the bytes that cc65's listing and map give for the same source.
If cc65 isn't installed, only lines recorded here are compared.

usage: workbench_list.py BIN65. The last line is 'N passed, M failed'."""
import os
import re
import sys
import tempfile
from typing import Dict, Iterator, List, NamedTuple, Tuple

import workbench_builds as builds

SEGMENTS = {".code": "CODE", ".rodata": "RODATA", ".data": "DATA", ".bss": "BSS", ".zeropage": "ZEROPAGE"}
THEIRS = re.compile(r"([0-9A-F]{6})r \d+  (.{11})(?:  (.*)| *$)")
# Lines of the program with tricks, as docs/LANGUAGE.md has it: local names by the call's number, counters and parameters put in.
SHOWN = """
8000  A2 05                        15  start:  ldx     #WIDTH          ; a comment
800A                               20          twice   WIDTH
800C  CA                         ++12  again?2:  dex
800F  05                         ++21          .byte   WIDTH+0
8014  06                         ++21          .byte   WIDTH+1
803A  91 13                       ++7          sta     (pointer),y
804C                               34  .proc work
8066  D0 FD                    ++++13          bne     again?12
C008  00 80 4C 80 6D 80 00 C0      55          .word   start, work, work::done, text
0300  6D 6F 76 65 64 00             3  moved:  .byte   "moved", 0
0012                                9          .res    1
806F  A9 03                       +26          lda #3
"""


class Ours(NamedTuple):
    """A line of our listing."""

    address: str
    data: str
    number: str
    text: str


def ours(text: str) -> Iterator[Ours]:
    """The lines of our listing, with all their bytes in one."""
    waiting: List[Ours] = []
    for line in text.splitlines():
        it = Ours(line[:6].strip(), line[6:29].strip(), line[30:37].strip(), line[39:])
        if line.startswith("== "):
            continue
        if not it.number and waiting:
            waiting[-1] = waiting[-1]._replace(data=f"{waiting[-1].data} {it.data}")
        else:
            waiting.append(it)
    yield from waiting


def theirs(text: str) -> Iterator[Tuple[int, str, str]]:
    """The lines of cc65's listing that put bytes: offset, bytes and text."""
    waiting: List[Tuple[int, str, str]] = []
    for line in text.splitlines():
        match = THEIRS.match(line)
        if match is None:
            continue
        data, said = match[2].strip(), (match[3] or "").rstrip()
        if data and not said and waiting and waiting[-1][1]:
            waiting[-1] = (waiting[-1][0], f"{waiting[-1][1]} {data}", waiting[-1][2])
        else:
            waiting.append((int(match[1], 16), data, said))
    yield from waiting


def begins(made: builds.Made) -> Dict[Tuple[str, str], int]:
    """Where each section begins, by cc65's map: of an object's name and a segment."""
    starts = {it[1]: int(it[2], 16) for it in re.finditer(r"^(\w+) +([0-9A-F]{6})  [0-9A-F]{6}  [0-9A-F]{6}  [0-9A-F]{5}$", made.map, re.M)}
    found, module = {}, ""
    for line in made.map.splitlines():
        if line.endswith(":") and not line.startswith(" "):
            module = line[:-1]
        part = re.match(r"    (\w+) +Offs=([0-9A-F]+)", line)
        if part:
            found[module, part[1]] = starts[part[1]] + int(part[2], 16)
    return found


class Segments:
    """Follows the segment of lines."""

    def __init__(self) -> None:
        self.now = "CODE"
        self.saved: List[str] = []

    def follow(self, text: str) -> None:
        """A line."""
        word = text.split(";")[0].strip().lower()
        match = re.match(r'\.segment +"(\w+)"', text.strip(), re.I)
        if word == ".pushseg":
            self.saved.append(self.now)
        elif word == ".popseg":
            self.now = self.saved.pop()
        else:
            self.now = match[1] if match else SEGMENTS.get(word, self.now)


def same_bytes(mine: str, other: str) -> bool:
    """Whether bytes are the same, but for those that cc65's assembler doesn't know."""
    mine_bytes, other_bytes = mine.split(), other.split()
    return not mine_bytes or (
        len(mine_bytes) == len(other_bytes) and all(b in ("xx", "rr") or a == b for a, b in zip(mine_bytes, other_bytes))
    )


def compare(results: builds.Results, name: str, said: str, listing: str, at: Dict[str, int]) -> int:
    """Compares the listings of a module; answers how many lines were compared."""
    mine = iter([it for it in ours(said) if "+" not in it.number])
    segments, compared = Segments(), 0
    for offset, data, text in theirs(listing):
        if data:
            line = next((it for it in mine if it.text.rstrip() == text), None)
            if line is None:
                results.check(f"{name}: {text}", False, "isn't in our listing")
                return compared
            if not text.strip().startswith(".repeat"):
                compared += 1
                address = at[segments.now] + offset
                is_so = line.address == f"{address:04X}" and (same_bytes(line.data, data) or not line.data)
                if not is_so:
                    results.check(f"{name}: {text}", False, f"{line}\n{address:04X} {data}")
        segments.follow(text)
    return compared


def with_cc65(results: builds.Results, program: str, folder: str) -> None:
    """Each program against cc65."""
    for it in builds.programs(folder):
        made = builds.by_cc65(it, folder)
        at = begins(made)
        said = builds.work65(program, f"{folder}/{it.folder}", "list", "--bytes", "0", *it.words()).stdout
        parts = dict(zip((line[3:] for line in said.splitlines() if line.startswith("== ")), [""] * 999))
        results.check(f"{it.name}: sources", set(it.sources) <= set(parts), sorted(parts))
        compared = 0
        for number, source in enumerate(it.sources):
            module = f"{os.path.splitext(os.path.basename(source))[0]}-{number}.o"
            mine = said.split(f"== {source}\n", 1)[1]
            offsets = {segment: begun for (its, segment), begun in at.items() if its == module}
            compared += compare(results, f"{it.name}, {source}", mine, made.listings[source], offsets)
        results.check(f"{it.name}: lines that were compared", compared >= 8, compared)


def shown(results: builds.Results, program: str, folder: str) -> None:
    """Lines that are written here."""
    it = builds.programs(folder)[0]
    lines = builds.work65(program, f"{folder}/{it.folder}", "list", *it.words()).stdout.splitlines()
    for wanted in SHOWN.strip("\n").splitlines():
        results.check(f"a line: {wanted}", wanted in lines, "\n".join(lines) if wanted == SHOWN.strip().splitlines()[0] else "")
    said = builds.work65(program, f"{folder}/{it.folder}", "list", "-o", "listing", *it.words()).stdout
    results.check("-o", said == "" and builds.text_of(f"{folder}/{it.folder}/listing").splitlines() == lines)


def main() -> None:
    program = os.path.abspath(sys.argv[1])
    results = builds.Results()
    with tempfile.TemporaryDirectory() as folder:
        shown(results, program, folder)
    if builds.has_cc65():
        with tempfile.TemporaryDirectory() as folder:
            with_cc65(results, program, folder)
    else:
        print("cc65 isn't here: addresses of listings aren't compared with its own")
    results.end()


if __name__ == "__main__":
    main()
