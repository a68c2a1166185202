#!/usr/bin/env python3
"""Counts how much of cc65's own library bin65 assembles: unchanged, and after `work65 port`.

A source of SRC/libsrc counts if its image is the one that cc65's tools make. Each source is assembled for the target of its
folder (`ca65 -t`, `work65 port --target`; bin65 has no such option) and linked alone, by a script whose SYMBOLS give each of
its imports a value. Needs cc65; takes some minutes.

usage: library.py SRC BIN65, where SRC is the unpacked source package of cc65"""
import collections
import os
import re
import subprocess
import sys
import tempfile
from concurrent.futures import ThreadPoolExecutor

ROOT = os.path.dirname(os.path.dirname(os.path.abspath(__file__)))
TARGETS = frozenset(
    "apple2 atari atari2600 atari5200 atmos c128 c16 c64 cbm510 cbm610 creativision cx16 gamate geos-apple geos-cbm lynx nes none osic1p "
    "pce pet plus4 sim6502 supervision telestrat vic20".split()
)
# Folders of sources that several targets share: the target for which they are assembled here.
SHARED = {"cbm": "c64", "geos-common": "geos-cbm"}
SEGMENTS = ("STARTUP", "ONCE", "INIT", "CODE", "LOWCODE", "RODATA", "DATA", "BSS", "ZEROPAGE", "EXTZP")
AREAS = {
    "ZP": ("zp", 'start = $02, size = $FE, file = ""'),
    "RAM": ("bss", 'start = $8000, size = $4000, file = ""'),
    "ROM": ("rw", "start = $2000, size = $6000"),
}


def ran(words, folder, **more):
    return subprocess.run(words, cwd=folder, env={**os.environ, **more}, capture_output=True, check=False)


def target_of(folder):
    return folder if folder in TARGETS else SHARED.get(folder)


def searched(src, folder):
    """The folders in which the sources of a folder of libsrc look for included files."""
    geos = ("geos-common", "geos-apple" if folder == "geos-apple" else "geos-cbm") if "geos" in folder else ()
    return [f"{src}/asminc", f"{src}/libsrc", *(f"{src}/libsrc/{it}" for it in geos)]


def with_option(option, values):
    return [word for it in values for word in (option, it)]


def area_of(segment):
    return "ZP" if segment in ("ZEROPAGE", "EXTZP") else "RAM" if segment == "BSS" else "ROM"


def script_of(module, folder):
    """A script for one object of cc65's: a row for each segment, and a value for each import."""
    dump = ran(["od65", "--dump-imports", "--dump-segsize", module], folder).stdout.decode("latin-1")
    imports = re.findall(r'Address size:\s+0x(\d\d)[^\n]*\n\s*Name:\s+"([^"]+)"', dump)
    segments = dict.fromkeys((*SEGMENTS, *re.findall(r"^\s+(\w+):\s+\d+", dump, re.M)))
    areas = "".join(f"  {name}: {text};\n" for name, (_, text) in AREAS.items())
    rows = "".join(f"  {it}: load = {area_of(it)}, type = {AREAS[area_of(it)][0]}, optional = yes;\n" for it in segments)
    values = "".join(
        f"  {name}: type = export, value = ${0x40 + at % 0x80 if size == '01' else 0x1200 + 3 * at:04X};\n"
        for at, (size, name) in enumerate(sorted(set(imports), key=lambda it: it[1]))
    )
    return f"MEMORY {{\n{areas}}}\nSEGMENTS {{\n{rows}}}\n" + (f"SYMBOLS {{\n{values}}}\n" if values else "")


def image(linker, module, folder):
    """The image of one object, or None if the linker rejects it."""
    if ran([*linker, "-C", "s.cfg", "-o", f"{module}.bin", module], folder).returncode:
        return None
    if not os.path.exists(f"{folder}/{module}.bin"):
        return b""
    with open(f"{folder}/{module}.bin", "rb") as it:
        return it.read()


def compared(src, program, ported, reported, path):
    """Returns the results of one source: (unchanged, after port). `reported` are the files of which port reported a construct."""
    rel = os.path.relpath(path, f"{src}/libsrc")
    top = rel.split("/", maxsplit=1)[0]
    target = target_of(top)
    with tempfile.TemporaryDirectory() as folder:
        words = with_option("-I", [os.path.dirname(path), *searched(src, top)])
        if ran(["ca65", *(["-t", target] if target else []), *words, "-o", "r.o", path], folder).returncode:
            return ("cc65's ca65 rejects it",) * 2
        with open(f"{folder}/s.cfg", "w", encoding="utf-8") as it:
            it.write(script_of("r.o", folder))
        wanted, found = image(["ld65"], "r.o", folder), []
        if wanted is None:
            return ("cc65's ld65 can't link it alone",) * 2
        for source, more in ((path, words), (f"{ported}/{rel}", ["-I", f"{ported}/{top}"])):
            if ran([program, "ca65", *more, "-o", "o.o", source], folder).returncode:
                found.append("rejected" if source == path else f"rejected{', as port reports' if path in reported else ''}")
            else:
                found.append("the same image" if image([program, "ld65"], "o.o", folder) == wanted else "ANOTHER IMAGE")
        return tuple(found)


def main():
    src, program = map(os.path.abspath, sys.argv[1:3])
    files = sorted(f"{place}/{it}" for place, _, names in os.walk(f"{src}/libsrc") for it in names if it.endswith(".s"))
    reported = set()
    with tempfile.TemporaryDirectory() as ported:
        for top in sorted({os.path.relpath(it, f"{src}/libsrc").split("/")[0] for it in files}):
            target = target_of(top)
            words = ["--target", target] if target else []
            port = ran(["sh", f"{ROOT}/workbench/work65.sh", "port", f"{src}/libsrc/{top}", "-o", f"{ported}/{top}", *words,
                        *with_option("-I", searched(src, top))], ROOT, BIN65=program)
            reported |= set(re.findall(r"^(/[^:\n]+):\d+: ", port.stdout.decode("latin-1"), re.M))
        with ThreadPoolExecutor(2) as pool:
            found = list(pool.map(lambda it: compared(src, program, ported, reported, it), files))
    for name, kinds in zip(("unchanged", "after port"), zip(*found)):
        print(f"{len(files)} sources, {name}:")
        for kind, count in collections.Counter(kinds).most_common():
            print(f"  {count:5} {kind}")
    for path, kinds in zip(files, found):
        if "ANOTHER IMAGE" in kinds or kinds[1] == "rejected":
            print(os.path.relpath(path, src), *kinds, sep=": ")


main()
