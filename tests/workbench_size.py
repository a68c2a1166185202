#!/usr/bin/env python3
"""Tests `work65 size`: segments and modules have the sizes of cc65's map, procedures those of cc65's debug file, and areas
those recorded here. If cc65 isn't installed, the comparison with it is skipped.

usage: workbench_size.py BIN65. The last line is 'N passed, M failed'."""
import json
import os
import pty
import re
import subprocess
import sys
import tempfile
from typing import Any, Dict, List, Set, Tuple
from xml.etree import ElementTree

import workbench_builds as builds
from workbench_list import begins

SCRIPT = """MEMORY {
    ZP:   file = "", start = $10, size = $20;
    RAM:  file = "", start = __ZP_LAST__ + $100, size = TOP - __ZP_LAST__ - $100;
    ROM:  start = $8000, size = 64, fill = yes;
    COPY: start = $8000 + __ROM_SIZE__, size = 32, file = "copy";
}
SEGMENTS {
    ZEROPAGE: load = ZP,   type = zp;
    CODE:     load = ROM,  type = ro, offset = 4;
    DATA:     load = COPY, run = RAM, type = rw;
    BSS:      load = RAM,  type = bss;
    SPARE:    load = ROM,  type = ro, optional = yes;
}
SYMBOLS { TOP: type = export, value = $200; }
"""
SOURCE = """        .export begin
begin   = outer
        .zeropage
        .res    3
        .code
.proc outer
        nop
.proc inner
        rts
.endproc
        rts
.endproc
        .data
        .res    10
        .bss
        .res    5
"""
# Name, start, size, used and free: ZP ends at $13, so RAM begins at $113 and has $200 - $113 bytes.
AREAS = [("ZP", 0x10, 32, 3, 29), ("RAM", 0x113, 0xED, 15, 0xED - 15), ("ROM", 0x8000, 64, 3, 61), ("COPY", 0x8040, 32, 10, 22)]
TEXT = """AREA  start  size  used  free
ZP     0010    32     3    29
RAM    0113   237    15   222
ROM    8000    64     3    61
COPY   8040    32    10    22

SEGMENT    run  load  size  area
ZEROPAGE  0010  0010     3    ZP
CODE      8004  8004     3   ROM
DATA      0113  8040    10   RAM
BSS       011D  011D     5   RAM

MODULE  size  ZEROPAGE  CODE  DATA  BSS
a.o       21         3     3    10    5

PROCEDURE     size  module
outer            3     a.o
outer::inner     1     a.o
"""


def written(results: builds.Results, program: str, folder: str) -> None:
    """Tests the results recorded here, from sources and from a map."""
    builds.pages.put(f"{folder}/a.cfg", SCRIPT)
    builds.pages.put(f"{folder}/a.s", SOURCE)
    for words in (("ca65", "-o", "a.o", "a.s"), ("ld65", "-C", "a.cfg", "-o", "a.bin", "-m", "a.map", "a.o")):
        subprocess.run([program, *words], cwd=folder, check=True)
    said = builds.work65(program, folder, "size", "-C", "a.cfg", "a.s").stdout
    results.check("the text", said == TEXT, said)
    said = builds.work65(program, folder, "size", "-C", "a.cfg", "a.map", BIN65="/none").stdout
    results.check("of a map", said == TEXT[: TEXT.index("\nPROCEDURE")], said)
    subprocess.run([program, "ar65", "r", "a.lib", "a.o"], cwd=folder, check=True)
    for given, name in (("a.o", "a.o"), (f"{folder}/a.o", f"{folder}/a.o"), ("a.lib", "a.lib(a.o)")):
        builds.pages.put(f"{folder}/needs.cfg", SCRIPT.replace("SYMBOLS {", "SYMBOLS { begin: type = import;"))
        said = builds.work65(program, folder, "size", "-C", "needs.cfg" if "lib" in name else "a.cfg", given).stdout
        results.check(f"of {given}", f"\n{name} " in said and said.startswith(TEXT[: TEXT.index("MODULE")]), said)
    values = json.loads(builds.work65(program, folder, "size", "-C", "a.cfg", "--json", "a.s").stdout)
    areas = [(it["name"], it["start"], it["size"], it["used"], it["free"]) for it in values["areas"]]
    results.check("areas", areas == AREAS, areas)
    results.check("a terminal", "ZP     0010    32     3    29  ###..........................." in on_terminal(program, folder))
    said = builds.work65(program, folder, "size", "-C", "a.cfg", "--svg", "a.svg", "a.map").stdout
    picture = ElementTree.fromstring(builds.text_of(f"{folder}/a.svg"))
    titles = [it.text for it in picture.iter("{http://www.w3.org/2000/svg}title")]
    wanted = ["ZP: 3 used, 29 free", "ZEROPAGE: $0010, 3 bytes", "CODE: $8004, 3 bytes"]
    wanted += ["DATA: $0113, 10 bytes", "DATA: $8040, 10 bytes", "BSS: $011D, 5 bytes"]
    results.check("the picture", said == "" and set(wanted) <= set(titles), titles)
    other = SCRIPT.replace("SPARE:", "OTHER:")
    builds.pages.put(f"{folder}/other.cfg", other)
    ran = builds.work65(program, folder, "size", "-C", "other.cfg", "a.map", status=1)
    results.check("another script's map", "other.cfg" in ran.stderr and ran.stderr.count("\n") == 1, ran.stderr)
    lines = builds.text_of(f"{folder}/a.map").splitlines()
    builds.pages.put(f"{folder}/bad.map", "\n".join(lines[:4]))
    ran = builds.work65(program, folder, "size", "-C", "a.cfg", "bad.map", status=1)
    results.check("half a map", "bad.map" in ran.stderr and ran.stderr.count("\n") == 1, ran.stderr)


def pictured(results: builds.Results, program: str) -> None:
    """The picture of the page WORKBENCH is the one of example/nes."""
    sources = [f"nes/{it}.s" for it in ("main", "controller", "player", "tiles")]
    with tempfile.TemporaryDirectory() as folder:
        words = ("size", "-C", "nes.cfg", *sources, "--svg", f"{folder}/size.svg")
        builds.work65(program, f"{builds.pages.ROOT}/example", *words)
        with open(f"{folder}/size.svg", encoding="utf-8") as made, open(f"{builds.pages.ROOT}/docs/screens/size.svg", encoding="utf-8") as kept:
            results.check("docs/screens/size.svg", made.read() == kept.read())


def on_terminal(program: str, folder: str) -> str:
    """Tests the output on a terminal."""
    reads, writes = pty.openpty()
    how = builds.environment(program)
    subprocess.run([sys.executable, "-m", "work65", "size", "-C", "a.cfg", "a.map"], cwd=folder, env=how, stdout=writes, check=True)
    os.close(writes)
    said = os.read(reads, 65536).decode()
    os.close(reads)
    return said.replace("\r", "")


def theirs(made: builds.Made) -> Tuple[Dict[str, int], List[Dict[str, int]]]:
    """The sizes of segments and of the modules' sections, by cc65's map."""
    lines = re.finditer(r"^(\w+) +[0-9A-F]{6}  [0-9A-F]{6}  ([0-9A-F]{6})  [0-9A-F]{5}$", made.map, re.M)
    segments = {it[1]: int(it[2], 16) for it in lines}
    modules: List[Dict[str, int]] = []
    for line in made.map[: made.map.index("Segment list:")].splitlines():
        part = re.match(r"    (\w+) +Offs=\w+  Size=(\w+)", line)
        if line.endswith(":") and ".o" in line:
            modules.append({})
        elif part and int(part[2], 16):
            modules[-1][part[1]] = int(part[2], 16)
    return segments, modules


def procedures(debug: str) -> Set[Tuple[str, int]]:
    """The procedures of cc65's debug file: scopes that have a symbol. Their sizes are those of all their spans."""
    sizes = dict(re.findall(r"^span\tid=(\d+),.*size=(\d+)", debug, re.M))
    found = re.findall(r'^scope\t.*name="(\w+)",.*type=scope.*,sym=\d+(?:,span=([\d+]+))?$', debug, re.M)
    return {(name, sum(int(sizes[it]) for it in spans.split("+") if it)) for name, spans in found}


def compare(results: builds.Results, name: str, values: Dict[str, Any], made: builds.Made) -> None:
    """Compares with what cc65 made."""
    segments, modules = theirs(made)
    mine = {it["name"]: it["size"] for it in values["segments"] if it["size"]}
    results.check(f"{name}: segments", mine == segments, f"{mine}\n{segments}")
    parts = [{key: size for key, size in it["segments"].items() if size} for it in values["modules"]]
    results.check(f"{name}: modules", parts == modules, f"{parts}\n{modules}")
    begun = {it["name"]: it["run"] for it in values["segments"]}
    results.check(f"{name}: addresses", all(at >= begun[segment] for (_, segment), at in begins(made).items() if segment in begun))
    procs = {(it["name"].split("::")[-1], it["size"]) for it in values["procedures"]}
    results.check(f"{name}: procedures", procs == procedures(made.debug), f"{procs}\n{procedures(made.debug)}")


def main() -> None:
    program = os.path.abspath(sys.argv[1])
    results = builds.Results()
    with tempfile.TemporaryDirectory() as folder:
        written(results, program, folder)
        pictured(results, program)
        for it in builds.programs(folder) if builds.has_cc65() else []:
            said = builds.work65(program, f"{folder}/{it.folder}", "size", "--json", *it.words()).stdout
            compare(results, it.name, json.loads(said), builds.by_cc65(it, folder))
    if not builds.has_cc65():
        print("cc65 isn't here: sizes aren't compared with its own")
    results.end()


if __name__ == "__main__":
    main()
