#!/usr/bin/env python3
"""Makes label files of a map with example/labels.sh: the lines must be the expected ones, and for VICE those that cc65's `ld65 -Ln` writes of the
same source and script, if cc65 is installed.

usage: labels.py BIN65. The last line is 'N passed, M failed'."""
import os
import shutil
import subprocess
import sys
import tempfile

import pages

SOURCE = """        .exportzp score
        .export reset, table, buffer, saved, last, PPUCTRL, minus
PPUCTRL = $2000
minus = -1
.zeropage
        .res    3
score:  .res    1
.bss
buffer: .res    8
.segment "SAVED"
        .res    $1FFF
saved:  .res    1
.code
        nop
reset:  jmp     reset
.rodata
        .res    $4000, 1
table:  .byte   1
        .res    $FFFA - $C005, 2
last:   .byte   3
"""
SCRIPT = """MEMORY {
    ZP:  file = "", start = $0010, size = $00F0;
    RAM: file = "", start = $0300, size = $0500;
    CART: file = "", start = $6000, size = $2000;
    PRG: start = $8000, size = $8000, define = yes;
}
SEGMENTS {
    ZEROPAGE: load = ZP, type = zp;
    BSS:      load = RAM, type = bss;
    SAVED:    load = CART, type = bss;
    CODE:     load = PRG, type = ro;
    RODATA:   load = PRG, type = ro;
}
"""
VICE = ["al 000013 .score", "al 000300 .buffer", "al 002000 .PPUCTRL", "al 007FFF .saved", "al 008001 .reset", "al 00C004 .table",
        "al 00FFFA .last", "al FFFFFFFF .minus"]
MESEN = ["NesInternalRam:0013:score", "NesInternalRam:0300:buffer", "NesMemory:2000:PPUCTRL", "NesPrgRom:0001:reset",
         "NesPrgRom:4004:table", "NesPrgRom:7FFA:last", "NesWorkRam:1FFF:saved"]
BATTERY = MESEN[:-1] + ["NesSaveRam:1FFF:saved"]


def main():
    program = os.path.abspath(sys.argv[1])
    results = []
    with tempfile.TemporaryDirectory() as folder:
        def run(*words):
            return subprocess.run(words, cwd=folder, capture_output=True, text=True, check=False)

        def labels(*words):
            return sorted(run("sh", f"{pages.ROOT}/example/labels.sh", *words).stdout.splitlines())

        pages.put(f"{folder}/a.s", SOURCE)
        pages.put(f"{folder}/a.cfg", SCRIPT)
        run(program, "ca65", "-o", "a.o", "a.s")
        run(program, "ld65", "-C", "a.cfg", "-m", "a.map", "-o", "a.bin", "a.o")
        vice = labels("vice", "a.map")
        results.append([it for it in vice if ".__" not in it] == VICE)
        results.append(labels("mesen", "a.map") == MESEN)
        results.append(labels("mesen-battery", "a.map") == BATTERY)
        results.append(run("sh", f"{pages.ROOT}/example/labels.sh", "a.map").returncode == 1)
        if shutil.which("ca65") and shutil.which("ld65"):
            run("ca65", "-o", "b.o", "a.s")
            run("ld65", "-C", "a.cfg", "-Ln", "b.lbl", "-o", "b.bin", "b.o")
            with open(f"{folder}/b.lbl", encoding="utf-8") as it:
                # (where an area's bytes lie in its file is a name that bin65 doesn't have)
                results.append(sorted(line.strip() for line in it if "_FILEOFFS__" not in line) == vice)
    for number, is_so in enumerate(results):
        if not is_so:
            print(f"check {number}: FAILED")
    print(f"{sum(results)} passed, {len(results) - sum(results)} failed")
    sys.exit(not all(results))


main()
