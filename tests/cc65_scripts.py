#!/usr/bin/env python3
"""Edits five scripts of an installed cc65 by the rules of docs/MIGRATING.md, and links a source with cc65 by the original and with bin65 by the
edited script: the images must be the same. If cc65 isn't installed, only the rules are tested, on a script of a few lines.

The rules: FEATURES, FILES and FORMATS are removed; `%S` becomes the start address; a weak symbol that an area needs becomes an export. What
FORMATS makes cc65's linker write around an Atari program gets areas of its own, and its bytes are in the source.

usage: cc65_scripts.py BIN65. The last line is 'N passed, M failed'."""
import os
import re
import shutil
import subprocess
import sys
import tempfile

import pages

SCRIPTS = "/usr/share/cc65/cfg"
ALL = '.segment "STARTUP"\nstart: lda value\n jmp start\n.code\n nop\n.rodata\n .byte 1, 2\n.data\nvalue: .byte 3\n.bss\n .res 4\n.zeropage\n .res 2\n'
NAMED = " .export __EXEHDR__\n__EXEHDR__ = 1\n"
LOADED = NAMED + ' .export __LOADADDR__\n__LOADADDR__ = 1\n.segment "LOADADDR"\n .addr ${}\n.segment "EXEHDR"\n .res {}, 5\n.segment "ONCE"\n rts\n'
SOURCES = {
    "nes": ALL + '.segment "HEADER"\n .byte "NES", $1A, 2, 1\n.segment "VECTORS"\n .addr start, start, start\n.segment "CHARS"\n .byte 6, 7\n',
    "c64": ALL + LOADED.format("0801", 13),
    "vic20": ALL + LOADED.format("1001", 12),
    "apple2": ALL + NAMED + '.segment "EXEHDR"\n .res 58, 5\n.segment "ONCE"\n rts\n',
    "atari-xex": ALL + " .export start, __SYSTEM_CHECK__\n__SYSTEM_CHECK__ = $2E00\n",
}
# The parts that cc65's linker writes around an Atari program: a mark, the first and the last address, and after the program the start address.
XEX = """ .import start, __MAIN_START__, __BSS_RUN__
.segment "MARK"
 .word $FFFF
.segment "FROMTO"
 .addr __MAIN_START__, __BSS_RUN__ - 1
.segment "RUN"
 .addr $02E0, $02E1, start
"""


def ported(text):
    """Returns a script of cc65's in the form that bin65 accepts."""
    start = re.search(r"STARTADDRESS:\s*default\s*=\s*(\S+?);", text)
    text = re.sub(r"^(FEATURES|FILES|FORMATS) \{.*?^\}\n", "", text, flags=re.M | re.S)
    text = re.sub(r"%S\b", start[1] if start else "%S", text)
    areas = "".join(re.findall(r"^MEMORY \{.*?^\}$", text, re.M | re.S))
    return re.sub(r"(\b(\w+):\s*type = )weak\b", lambda it: f"{it[1]}{'export' if it[2] in areas else 'weak'}", text)


def for_atari(text):
    """Returns the areas and rows that replace FORMATS, without the chunk that checks the system."""
    text = re.sub(r"^.*(SYSCHK|__SYSTEM_CHECK__).*\n", "", text, flags=re.M)
    around = ("MARK", "FROMTO"), ("RUN",)
    areas = [[f"    {it}: file = %O, start = 0, size = {'6' if it == 'RUN' else '4' if it == 'FROMTO' else '2'};\n" for it in names] for names in around]
    text = re.sub(r"^( +MAIN: .*\n)", lambda it: "".join(areas[0]) + it[1] + "".join(areas[1]), text, flags=re.M)
    return text.replace("SEGMENTS {\n", "SEGMENTS {\n" + "".join(f"    {it}: load = {it}, type = ro;\n" for it in sum(around, ())))


def image(assembler, linker, script, sources):
    """Returns the image of sources, or the output of the failed command."""
    with tempfile.TemporaryDirectory() as folder:
        objects = []
        for number, source in enumerate(sources):
            pages.put(f"{folder}/{number}.s", source)
            objects.append(f"{number}.o")
            ran = subprocess.run([*assembler, "-o", objects[-1], f"{number}.s"], cwd=folder, capture_output=True, text=True, check=False)
            if ran.returncode:
                return ran.stderr
        ran = subprocess.run([*linker, "-C", script, "-o", "image", *objects], cwd=folder, capture_output=True, text=True, check=False)
        if ran.returncode:
            return ran.stderr
        with open(f"{folder}/image", "rb") as it:
            return it.read()


def main():
    program, wrong, passed = os.path.abspath(sys.argv[1]), [], 0
    edited = ported("FEATURES {\n    STARTADDRESS: default = $0801;\n}\nSYMBOLS {\n    A: type = weak, value = 1;\n    B: type = weak, value = 2;\n}\n"
                    "MEMORY {\n    M: start = %S - 2, size = A;\n}\n")
    is_so = edited == "SYMBOLS {\n    A: type = export, value = 1;\n    B: type = weak, value = 2;\n}\nMEMORY {\n    M: start = $0801 - 2, size = A;\n}\n"
    passed, wrong = passed + is_so, wrong + [edited] * (not is_so)
    if not os.path.isdir(SCRIPTS) or not all(map(shutil.which, ("ca65", "ld65"))):
        print("cc65 isn't here: none of its scripts is edited")
    else:
        for name, source in SOURCES.items():
            with open(f"{SCRIPTS}/{name}.cfg", encoding="utf-8") as it:
                text = ported(it.read())
            with tempfile.TemporaryDirectory() as folder:
                pages.put(f"{folder}/edited.cfg", for_atari(text) if name == "atari-xex" else text)
                theirs = image(["ca65"], ["ld65"], f"{SCRIPTS}/{name}.cfg", [source])
                ours = image([program, "ca65"], [program, "ld65"], f"{folder}/edited.cfg", [source] + [XEX] * (name == "atari-xex"))
            is_so = isinstance(ours, bytes) and ours == theirs and len(ours) > 10
            passed, wrong = passed + is_so, wrong + [f"{name}: {ours[:300]!r}, cc65: {theirs[:300]!r}"] * (not is_so)
    for it in wrong:
        print(it)
    print(f"{passed} passed, {len(wrong)} failed")
    sys.exit(bool(wrong))


main()
