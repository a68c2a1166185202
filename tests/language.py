#!/usr/bin/env python3
"""Checks the examples of docs/LANGUAGE.md: each is accepted and emits the listed bytes, in bin65 and, if it is installed, in cc65; and each
directive of the tables has a heading with an example, in alphabetical order.

usage: language.py BIN65. The last line is 'N passed, M failed'."""
import os
import re
import shutil
import subprocess
import sys
import tempfile

import pages

EXAMPLE = re.compile(r"^```asm\n(.*?)^```\n(.*)", re.M | re.S)
FILE = re.compile(r"^\*\*([\w.]+)\*\*\n```\n(.*?)^```$", re.M | re.S)
PLACES = re.compile(r"Places `([0-9A-F ]+)`\.\n")
SCRIPT = """MEMORY {
    Z: file = "", start = $0002, size = $FE;
    M: file = %O, start = $C000, size = $3000;
    R: file = "", start = $0200, size = $1000;
}
SEGMENTS {
    ZEROPAGE: load = Z, type = zp, optional = yes;
    CODE: load = M, align = 4;
    RODATA: load = M, type = ro, optional = yes;
    DATA: load = M, optional = yes;
    BSS: load = R, type = bss, optional = yes;
}
SYMBOLS {
    pointer: type = export, value = $10;
    table: type = export, value = $1234;
}
"""


def image(assembler, linker, source, files):
    """Returns the image of a source, or the output of the failed command."""
    with tempfile.TemporaryDirectory() as folder:
        for name, text in (*files, ("a.s", source), ("a.cfg", SCRIPT)):
            pages.put(f"{folder}/{name}", text)
        for words in ([*assembler, "-o", "a.o", "a.s"], [*linker, "-C", "a.cfg", "-o", "a.bin", "a.o"]):
            ran = subprocess.run(words, cwd=folder, capture_output=True, text=True, check=False)
            if ran.returncode:
                return ran.stderr
        with open(f"{folder}/a.bin", "rb") as it:
            return it.read()


def examples(text):
    """Returns the examples of a page, as (source, files, listed bytes)."""
    parts = re.split(r"^```asm\n", text, flags=re.M)
    for before, part in zip(parts, parts[1:]):
        source, _, after = part.partition("\n```\n")
        said = PLACES.match(after)
        yield source + "\n", FILE.findall(before.rpartition("\nPlaces ")[2]), said and bytes.fromhex(said[1])


def why_wrong(program, source, files, said):
    """Returns what is wrong with an example, or None."""
    if said is None:
        return "the page doesn't say what it places"
    if (found := image([program, "ca65"], [program, "ld65"], source, files)) != said:
        return f"bin65: {found!r}"
    if shutil.which("ca65") and shutil.which("ld65") and (found := image(["ca65"], ["ld65"], source, files)) != said:
        return f"cc65: {found!r}"
    return None


def directives(page):
    """Returns the directives in the page's tables of statements and of macros."""
    tables = page.split("| Statement | Meaning |")[1].split("\n\n")[0] + page.split("| Directive | What it does |")[1].split("\n\n")[0]
    rows = re.findall(r"^\| (`[^|]*?) \|", tables, re.M)
    return {it for row in rows for it in re.findall(r"(?<![\w.])\.[a-z]\w+", row)} | {".paramcount"}


def why_headings(page):
    """Returns what is wrong with the headings of directives, or None."""
    part = page.split("\n## Each directive, with an example\n")[1].split("\n## ")[0]
    found = pages.sections(part, "###")
    named = [re.findall(r"`(\.\w+)`", title) for title, _ in found]
    wanted = directives(page)
    if missing := wanted - set(sum(named, [])):
        return f"no heading for {', '.join(sorted(missing))}"
    if other := set(sum(named, [])) - wanted:
        return f"no row of the tables for {', '.join(sorted(other))}"
    blocks = "".join(re.findall(r"^```asm\n(.*?)^```$", page, re.M | re.S))
    if idle := [it for it in sorted(wanted) if not re.search(rf"(?<![\w.]){re.escape(it)}\b", blocks)]:
        return f"no example has {', '.join(idle)}"
    if named != sorted(named):
        return "they aren't in alphabetical order"
    idle = [title for (title, text), names in zip(found, named) if not re.search(r"^```asm\n.*^```$", text, re.M | re.S)
            or not any(re.search(rf"(?<!\w){re.escape(it)}\b", text.split("```asm")[1]) for it in names)]
    return f"no example for {idle[0]}" if idle else None


def main():
    program, page = os.path.abspath(sys.argv[1]), pages.read("docs/LANGUAGE.md")
    found = list(examples(page.split("\n## Scripts\n")[0]))
    faults = {f"example {number}: {source}": why_wrong(program, source, *rest) for number, (source, *rest) in enumerate(found)}
    faults["the headings of directives"] = why_headings(page)
    for name, why in faults.items():
        if why:
            print(f"{name}: {why}")
    failed = sum(bool(it) for it in faults.values())
    print(f"{len(faults) - failed} passed, {failed} failed")
    sys.exit(failed > 0 or not found)


main()
