#!/usr/bin/env python3
"""Tests `work65 labels`: the labels of each program are those that cc65's `ld65 -Ln` writes with debug information, by name and
address. If cc65 isn't installed, this is skipped. Other formats are compared with lines recorded here.

usage: workbench_labels.py BIN65. The last line is 'N passed, M failed'."""
import os
import re
import subprocess
import sys
import tempfile
from typing import Dict, List, Set, Tuple

import workbench_builds as builds

VICE = """
al 000013 .pointer
al 00804C .work
al 008051 .work@again
al 00804E .work::deep::here
al 008068 .work::deep::away
al 00806C .work::hidden
al 00806D .work::done
al 00D000 .PORT
al 00C01B .table
al 008080 .private
al 00800C .again?2
""".split("\n")
CARTRIDGE = {
    "game.s": """        .segment "HEADER"
        .byte   "NES", $1A, 2, 0, 0
        .res    9
        .zeropage
        .res    4
score:  .res    1
        .bss
buffer: .res    8
        .segment "EXTRA"
saved:  .res    2
CONTROL := $2000
        .segment "FIRST"
        .res    16
table:  .byte   1
        .code
.proc reset
@loop:  sta     CONTROL
        jmp     @loop
.endproc
        .segment "CHARS"
tile:   .byte   1
""",
    "game.cfg": """MEMORY {
    ZP:    file = "", start = $0010, size = $00F0;
    RAM:   file = "", start = $0300, size = $0500;
    WORK:  file = "", start = $6000, size = $2000;
    HEAD:  start = 0, size = 16;
    BANK0: start = $8000, size = $4000, fill = yes;
    BANK1: start = $C000, size = $4000, fill = yes;
    CHR:   start = $0000, size = $2000;
}
SEGMENTS {
    ZEROPAGE: load = ZP, type = zp;
    BSS:      load = RAM, type = bss;
    EXTRA:    load = WORK, type = bss;
    HEADER:   load = HEAD, type = ro;
    FIRST:    load = BANK0, type = ro;
    CODE:     load = BANK1, type = ro;
    CHARS:    load = CHR, type = ro, optional = yes;
}
SYMBOLS { MAPPER: type = export, value = 3; STATUS: type = export, value = $2002; }
""",
}
FORMS: Dict[str, List[str]] = {
    "mesen": [
        "NesInternalRam:0014:score",
        "NesInternalRam:0300:buffer",
        "NesMemory:2000:CONTROL",
        "NesMemory:2002:STATUS",
        "NesWorkRam:0000:saved",
        "NesPrgRom:0010:table",
        "NesPrgRom:4000:reset",
        "NesPrgRom:4000:reset@loop",
    ],
    "nocash": "00000000 tile|00000003 MAPPER|00000014 score|00000300 buffer|00002000 CONTROL|00002002 STATUS|00006000 saved|00008010 table|0000C000 reset|0000C000 reset@loop".split("|"),
    "fceux": ["$0000#tile#", "$0014#score#", "$0300#buffer#", "$2000#CONTROL#", "$2002#STATUS#", "$6000#saved#", "$8010#table#", "$C000#reset#", "$C000#reset@loop#"],
}
# Tests a constant of 255 operators and operands, the maximum: a mark can't contain its value, so it has no label.
LARGE = f"""        .import other
large := {"+".join(["other"] * 128)}
        .word   large
last:   rts
"""
# A program whose library has its members in another order than their names, and where they lie by each order.
LIBRARY: Dict[str, str] = {
    "main.s": ".import zeta, alpha\n .word zeta, alpha\n",
    "lib/zeta.s": ".export zeta\nzeta: .byte 1, 2, 3\n",
    "lib/alpha.s": ".export alpha\nalpha: .byte 4\n",
    "x.cfg": "MEMORY { A: start = $8000, size = $100; }\nSEGMENTS { CODE: load = A; }\n",
}
BY_NAME, BY_LIBRARY = ["00008004 alpha", "00008005 zeta"], ["00008004 zeta", "00008007 alpha"]
BESIDE = {"ram": FORMS["fceux"][1:6], "0": FORMS["fceux"][6:7], "1": FORMS["fceux"][7:]}


def ours(text: str) -> Set[Tuple[str, str]]:
    """Addresses and names, without scopes and regions; a call's own names are one."""
    found = set()
    for line in text.splitlines():
        _, address, name = line.split(" ")
        name = name[1:].split("::")[-1]
        name = "@" + name.split("@")[1] if "@" in name else name
        found.add((address, "local" if "?" in name else name))
    return found


def theirs(text: str) -> Set[Tuple[str, str]]:
    """The same of cc65's: where an area's bytes lie in its file is a name that bin65 doesn't have."""
    found = set()
    for address, name in re.findall(r"^al ([0-9A-F]{6,}) \.(\S+)$", text, re.M):
        if "_FILEOFFS__" not in name:
            found.add((address, "local" if name.startswith("LOCAL-MACRO") else name))
    return found


def of_rows_without_bytes(names: Set[Tuple[str, str]]) -> Set[Tuple[str, str]]:
    """What `define` gives for rows that no module has: cc65 gives nothing there."""
    rows = {name[2:-7] for address, name in names if name.startswith("__") and name.endswith("_SIZE__") and address == "000000"}
    return {it for it in names for row in rows if it[1] in (f"__{row}_LOAD__", f"__{row}_RUN__", f"__{row}_SIZE__")}


def forms(results: builds.Results, program: str, folder: str) -> None:
    """The other forms, of a cartridge with two banks."""
    for name, text in CARTRIDGE.items():
        builds.pages.put(f"{folder}/{name}", text)
    for form, wanted in FORMS.items():
        said = builds.work65(program, folder, "labels", "-C", "game.cfg", "--format", form, "game.s").stdout
        results.check(form, said.splitlines() == wanted, said)
    builds.work65(program, folder, "labels", "-C", "game.cfg", "--format", "fceux", "-o", "game.nes", "game.s")
    builds.pages.put(f"{folder}/large.s", LARGE)
    builds.pages.put(f"{folder}/small.s", "        .export other\nother   = 3\n")
    said = builds.work65(program, folder, "labels", "-C", "game.cfg", "--format", "nocash", "large.s", "small.s").stdout
    results.check("a constant as large as one can be", said == "00000003 MAPPER\n00000003 other\n00002002 STATUS\n0000C002 last\n", said)
    written = {it.split(".")[2]: builds.text_of(f"{folder}/{it}").splitlines() for it in os.listdir(folder) if it.endswith(".nl")}
    results.check("fceux's files", written == BESIDE, written)


def libraries(results: builds.Results, program: str, folder: str) -> None:
    """A library's members in the order of its list, or of the library that is there; and an image that is another one."""
    for name, text in LIBRARY.items():
        os.makedirs(os.path.dirname(f"{folder}/{name}"), exist_ok=True)
        builds.pages.put(f"{folder}/{name}", text)
    line = ["labels", "-C", "x.cfg", "--format", "nocash", "main.s"]

    def order(name: str, library: str, wanted: List[str], *more: str) -> None:
        said = builds.work65(program, folder, *line, "--library", library, *more).stdout
        results.check(f"a library {name}", said.splitlines() == wanted, said)

    def made(*tool: str) -> None:
        for it in ("zeta", "alpha", "main"):
            source = "main.s" if it == "main" else f"lib/{it}.s"
            subprocess.run([*tool, "ca65", "-o", f"{it}.o", source], cwd=folder, check=True)
        subprocess.run([*tool, "ar65", "r", "l.lib", "zeta.o", "alpha.o"], cwd=folder, check=True)
        subprocess.run([*tool, "ld65", "-C", "x.cfg", "-o", "game.bin", "main.o", "l.lib"], cwd=folder, check=True)

    order("in the order of names", "l.lib=lib", BY_NAME)
    order("of a list", "l.lib=lib/zeta.s,lib/alpha.s", BY_LIBRARY)
    for tool in [(program,), ()] if builds.has_cc65() else [(program,)]:
        made(*tool)
        order("that is there", "l.lib=lib", BY_LIBRARY, "--image", "game.bin")
        os.remove(f"{folder}/l.lib")
        order("of a list, with its image", "l.lib=lib/zeta.s,lib/alpha.s", BY_LIBRARY, "--image", "game.bin")
    for command in ("list", "labels", "debug", "size"):
        words = [command, "-C", "x.cfg", "--library", "l.lib=lib", "--image", "game.bin", "main.s"]
        words += ["-o", "x.dbg"] * (command == "debug")
        ran = builds.work65(program, folder, *words, status=1)
        said = "game.bin isn't the image of these sources: it has 8 bytes, theirs 8; they differ from $0 on"
        results.check(f"{command} of another image", said in ran.stderr and not ran.stdout, ran.stderr)


def main() -> None:
    program = os.path.abspath(sys.argv[1])
    results = builds.Results()
    with tempfile.TemporaryDirectory() as folder:
        forms(results, program, folder)
        libraries(results, program, f"{folder}/library")
        programs = builds.programs(folder)
        for it in programs if builds.has_cc65() else programs[:1]:
            said = builds.work65(program, f"{folder}/{it.folder}", "labels", *it.words()).stdout
            if it.name == "tricks":
                for wanted in filter(None, VICE):
                    results.check(wanted, wanted in said.splitlines(), said)
            if builds.has_cc65():
                mine, other = ours(said), theirs(builds.by_cc65(it, folder).labels)
                mine -= of_rows_without_bytes(mine) - other
                results.check(f"{it.name}: the labels of ld65 -Ln", mine == other, f"ours alone {mine - other}\ncc65's alone {other - mine}")
    if not builds.has_cc65():
        print("cc65 isn't here: labels aren't compared with those of ld65 -Ln")
    results.end()


main()
