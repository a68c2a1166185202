#!/usr/bin/env python3
"""Checks docs/MIGRATING.md: a replacement gives the listed bytes in bin65, and so does the original in cc65; constructs that give other bytes give
the listed ones in both; the search finds each text that must change and none that is accepted; and the lists of opcodes and of cc65's own
files are right. cc65 is run if it is installed.

usage: migrating.py BIN65. The last line is 'N passed, M failed'."""
import os
import re
import shutil
import subprocess
import sys
import tempfile

import pages
import cc65_files

SCRIPT = """MEMORY {
    Z: file = "", start = $0002, size = $FE;
    M: file = %O, start = $C000, size = $3000;
    R: file = "", start = $0200, size = $1000;
}
SEGMENTS {
    ZEROPAGE: load = Z, type = zp, optional = yes;
    CODE: load = M, type = rw;
    BSS: load = R, type = bss, optional = yes;
}
SYMBOLS {
    pointer: type = export, value = $10;
    table: type = export, value = $1234;
    limit: type = export, value = 9;
}
"""
BLOCK = r"\n((?:(?!```).)*)```\n"
CFG = f"(?:```cfg{BLOCK})?"
PAIR = re.compile(f"```cc65{BLOCK}```asm{BLOCK}Both place (.*?)\\.\n", re.S)
OTHER = re.compile(f"{CFG}```cc65{BLOCK}cc65 (.*?), bin65 (.*?)\\.\n{CFG}```asm{BLOCK}Both place (.*?)\\.\n", re.S)
SUMS = re.compile(f"(?:```cfg65{BLOCK})?```cfg{BLOCK}```asm{BLOCK}Both place (.*?)\\.\n", re.S)
ROW = re.compile(r"^\| (`[^|]+`) \| (`[^|]+`) \| `([0-9A-F ]+)` \|$", re.M)
OPCODES = re.compile(r"^\| `(\w{3})` \|((?: *[0-9A-F]{0,2} *\|)*(?: *[0-9A-F]{0,2} *))\|$", re.M)
FORMS = ("#1", "$10", "$10,x", "$10,y", "$1234", "$1234,x", "$1234,y", "($10,x)", "($10),y")
# Texts that have to change, and that no word tells
UNSEEN = ("`.export` within a scope",)


def image(assembler, linker, text, script=None):
    """Returns the image of a source, or the output of the failed command."""
    with tempfile.TemporaryDirectory() as folder:
        for name, content in (("a.s", text), ("l.cfg", script or SCRIPT)):
            pages.put(f"{folder}/{name}", content)
        for words in ([*assembler, "-o", "a.o", "a.s"], [*linker, "-C", "l.cfg", "-o", "a.bin", "a.o"]):
            ran = subprocess.run(words, cwd=folder, capture_output=True, text=True, check=False)
            if ran.returncode:
                return ran.stderr
        with open(f"{folder}/a.bin", "rb") as it:
            return it.read()


def is_said(found, said):
    """Returns whether an image is the documented one: its bytes, its size, or that there is none."""
    if not isinstance(found, bytes):
        return said == "refuses it"
    return said.removeprefix("places ") in (f"`{found.hex(' ').upper()}`", f"{len(found)} bytes")


def lines_of(cell):
    """Returns the source whose lines are a table's cell, each in its own quotes."""
    return "".join(f"{it}\n" for it in re.findall(r"`([^`]+)`", cell))


class Tries:
    """Counts of passed and failed rows, with the two programs."""

    def __init__(self, program):
        self.passed = self.failed = 0
        self.ours = [program, "ca65"], [program, "ld65"]
        self.cc65 = (["ca65"], ["ld65"]) if shutil.which("ca65") and shutil.which("ld65") else None

    def check(self, name, is_so, found=""):
        self.passed, self.failed = self.passed + bool(is_so), self.failed + (not is_so)
        if not is_so:
            print(f"{name}: {found}")

    def pair(self, title, before, after, said):
        """Checks that the replacement gives the listed bytes in both, and the original in cc65."""
        found = image(*self.ours, after)
        good = is_said(found, said)
        if self.cc65:
            good = good and image(*self.cc65, before) == found == image(*self.cc65, after)
        self.check(title, good, found)

    def other(self, title, script, before, cc65, bin65, script_after, after, said):
        """Checks a construct that gives the listed, different bytes, and its replacement, which gives the same bytes in both."""
        found = image(*self.ours, before, script), image(*self.ours, after, script_after or script)
        good = is_said(found[0], bin65) and is_said(found[1], f"places {said}")
        if self.cc65:
            good = good and is_said(image(*self.cc65, before, script), cc65)
            good = good and image(*self.cc65, after, script_after or script) == found[1]
        self.check(title, good, found)

    def script(self, before, after, source, said):
        """Checks that a script that both accept and cc65's original give the same image."""
        found = image(*self.ours, source, after)
        good = is_said(found, said)
        if self.cc65:
            good = good and image(*self.cc65, source, before or after) == found == image(*self.cc65, source, after)
        self.check(f"a script, {said}", good, found)

    def search(self, command, pairs):
        """Checks that the search finds the text that must change, and nothing in its replacement."""
        for title, before, after, _ in pairs:
            with tempfile.TemporaryDirectory() as folder:
                for name, text in (("a.inc", ""), ("a.s", before)):
                    pages.put(f"{folder}/{name}", text)
                found = pages.run(command, "/usr/bin", folder)
                pages.put(f"{folder}/a.s", after)
                left = pages.run(command, "/usr/bin", folder)
                self.check(f"the search, {title}", (found or title in UNSEEN) and not left, f"{found!r} {left!r}")

    def opcodes(self, text):
        """Checks that each opcode of the table is the one that cc65 accepts for this instruction and form."""
        for name, cells in OPCODES.findall(text):
            for form, cell in zip(FORMS, map(str.strip, cells.split("|"))):
                if cell and self.cc65:
                    found = image(*self.cc65, f'.setcpu "6502X"\n {name} {form}\n')
                    self.check(f"{name} {form}", isinstance(found, bytes) and found[0] == int(cell, 16), found)

    def files(self, text):
        """Checks that the lists of cc65's files are those of the files that give the same bytes in both."""
        program, named = self.ours[0][0], set(re.findall(r"^(?:`[\w-]+\.(?:inc|mac)`(?:, )?)+$", text, re.M))
        listed = sorted(re.findall(r"`([^`]+)`", " ".join(named)))
        taken = sorted(cc65_files.taken(program))
        self.check("cc65's include and macro files", taken == listed, taken)
        said = re.search(r"^Of cc65's 63 scripts (.*?) accepted unchanged", text, re.M)[1]
        scripts = list(cc65_files.scripts(program))
        self.check("cc65's scripts", scripts == re.findall(r"`([^`]+)`", said) and (bool(scripts) or said == "none is"), scripts)


def main():
    page = pages.read("docs/MIGRATING.md")
    tries = Tries(os.path.abspath(sys.argv[1]))
    parts = pages.sections(page, "###")
    pairs = [(title, *it.groups()) for title, text in parts for it in PAIR.finditer(text)]
    rows = [(before, *(lines_of(it) for it in (before, after)), f"`{said}`") for before, after, said in ROW.findall(page)]
    others = [(title, *it.groups()) for title, text in parts for it in OTHER.finditer(text)]
    for it in pairs + rows:
        tries.pair(*it)
    for it in others:
        tries.other(*it)
    sums = SUMS.findall(dict(parts)["Sums of areas"])
    for it in sums:
        tries.script(*it)
    tries.search(re.search(r"```sh\n(grep.*?)```", page, re.S)[1], pairs + rows)
    tries.opcodes(page)
    if tries.cc65 and cc65_files.is_there():
        tries.files(page)
    tries.failed += page.count("```cc65\n") != len(pairs) + len(others) or not rows or not sums
    print(f"{tries.passed} passed, {tries.failed} failed")
    sys.exit(tries.failed > 0)


main()
