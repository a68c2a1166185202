#!/usr/bin/env python3
"""Tests `work65 debug`: for each program, the pairs of line and address, the labels, and the scopes with their sizes are those of the debug
file that cc65's linker writes with --dbgfile. If cc65 isn't installed, only the results recorded here are compared.

usage: workbench_debug.py BIN65. The last line is 'N passed, M failed'."""
import os
import re
import sys
import tempfile
from typing import Dict, List, Set, Tuple

import workbench_builds as builds

Entry = Dict[str, str]
# Lines and addresses of the program with tricks: file, line, first address.
PAIRS = [("main.s", 15, 0x8000), ("macros.inc", 12, 0x800C), ("macros.inc", 21, 0x8014), ("main.s", 29, 0x803C), ("more.inc", 3, 0x0300)]
# Constants of all address sizes, a file that puts nothing, and modules that put nothing into CODE.
SMALL: Dict[str, str] = {
    "main.s": """        .include "nothing.inc"
        .importzp pointer
        .import table
.zeropage
short:  .res 2
.code
start:  nop
other:  nop
k1 = 5
k2 = 256
k3 = $10000
k4 = $1000000
k5 = -1
k6 = start
k7 = short
k8 = <start
k9 = other - start
k10 = start + 1
k11 = short + 1
k12 = short + 300
k13 = later
k14 = later - start
k15 = start & 255
k16 = start > 3
k17 := 5
k18 := $300
k20 = start / 2
k22 = 5 + start
k23 = later_short
k24 = k13
k25 = !start
k29 = start | short
k31 = k6 + k1
k32 = >start
k33 = ^start
k34 = start .mod 4
k35 = start && 1
k36 = pointer + 1
k37 = table
k38 = k1 + NOTHING
later:  nop
.zeropage
later_short: .res 1
""",
    "nothing.inc": "NOTHING = 1\n",
    "other.s": " .export table\n .exportzp pointer\n.bss\n .res 3\n.rodata\ntable: .res 16\n.zeropage\npointer: .res 2\n",
    "third.s": '.data\n        .res 2\n.scope s\n.bss\n        .res 3\n.data\n        .byte 1\n.endscope\n.bss\n        .res 4\n',
    "small.cfg": """MEMORY { Z: file = "", start = $0002, size = $FE; M: start = $C000, size = $3000;
    R: file = "", start = $0200, size = $1000; }
SEGMENTS { ZEROPAGE: load = Z, type = zp; CODE: load = M, type = ro; RODATA: load = M, type = ro; DATA: load = M, type = rw;
    BSS: load = R, type = bss; }
""",
}
# A constant of -D is a symbol in cc65's file only
DEFINED = ("LARGE", "NTSC")
KINDS = ("file", "lib", "line", "mod", "scope", "seg", "span", "sym", "type")


class Debug:
    """A debug file: its entries by kind and number."""

    def __init__(self, text: str) -> None:
        self.text = text
        self.entries: Dict[str, Dict[str, Entry]] = {}
        for line in text.splitlines():
            kind, _, rest = line.partition("\t")
            entry = dict(it.split("=", 1) for it in re.findall(r'\w+=(?:"[^"]*"|[^,]*)', rest))
            self.entries.setdefault(kind, {})[entry.get("id", "")] = entry

    def of(self, kind: str) -> Dict[str, Entry]:
        """The entries of a kind."""
        return self.entries.get(kind, {})

    def spans(self, entry: Entry) -> Set[int]:
        """The addresses of an entry's spans."""
        found: Set[int] = set()
        for it in filter(None, entry.get("span", "").split("+")):
            span = self.of("span")[it]
            begun = int(self.of("seg")[span["seg"]]["start"], 16) + int(span["start"])
            found |= set(range(begun, begun + int(span["size"])))
        return found

    def pairs(self) -> Set[Tuple[str, int, int]]:
        """Each file and line, with each address that it puts."""
        found = set()
        for line in self.of("line").values():
            file = os.path.normpath(self.of("file")[line["file"]]["name"].strip('"'))
            found |= {(file, int(line["line"]), it) for it in self.spans(line)}
        return found

    def scope_name(self, entry: Entry) -> str:
        """The name of a scope and of those around it; one without a name is the same as any other."""
        name = re.sub(r"\$anon.*", "$anon", entry["name"].strip('"'))
        return self.scope_name(self.of("scope")[entry["parent"]]) + "::" + name if "parent" in entry else name

    def scopes(self) -> Set[Tuple[str, str]]:
        """Each scope and its addresses."""
        found = set()
        for it in self.of("scope").values():
            found.add((self.scope_name(it), " ".join(map(str, sorted(self.spans(it))))))
        return found

    def symbols(self) -> Set[Tuple[str, str, int, str]]:
        """Labels and constants that have a value, with their scope. In ca65 a constant, too, begins a region of cheap labels."""
        found = set()
        for it in self.of("sym").values():
            name = it["name"].strip('"')
            if "val" in it and not name.startswith("LOCAL-MACRO") and "?" not in name:
                around = "" if "parent" in it else self.scope_name(self.of("scope")[it["scope"]])
                found.add((name, it["type"], int(it["val"], 16), around))
        return found

    def address_sizes(self) -> Set[Tuple[str, str]]:
        """The address sizes of symbols."""
        found = ((it["name"].strip('"'), it["addrsize"]) for it in self.of("sym").values() if "val" in it)
        return {it for it in found if not it[0].startswith("LOCAL-MACRO") and "?" not in it[0] and it[0] not in DEFINED}

    def sizes_of_scopes(self) -> Set[Tuple[str, str, str]]:
        """The sizes of scopes, with the numbers of their modules."""
        return {(it["mod"], self.scope_name(it), it.get("size", "")) for it in self.of("scope").values()}

    def files(self) -> Set[str]:
        """The files of source that modules read; data is listed in cc65's file alone."""
        names = (os.path.normpath(it["name"].strip('"')) for it in self.of("file").values())
        return {it for it in names if it.endswith((".s", ".inc"))}

    def data(self) -> Set[Tuple[int, str, str]]:
        """Spans that have a type: where they begin, their size and their type."""
        found = set()
        for it in self.of("span").values():
            if "type" in it:
                begun = int(self.of("seg")[it["seg"]]["start"], 16) + int(it["start"])
                found.add((begun, it["size"], self.of("type")[it["type"]]["val"]))
        return found

    def segments(self) -> Set[Tuple[str, ...]]:
        """The segments that hold something."""
        keys = ("name", "start", "size", "addrsize", "type", "ooffs")
        return {tuple(it.get(key, "") for key in keys) for it in self.of("seg").values() if int(it["size"], 16)}


def written(debug: Debug) -> List[str]:
    """Returns errors in a file by itself: its counts, and numbers of entries that don't exist."""
    counts = debug.of("info").get("", {})
    wrong = [f"{kind}: {len(debug.of(kind))} aren't {counts.get(kind)}" for kind in KINDS if str(len(debug.of(kind))) != counts.get(kind)]
    leads = {"file": "file", "span": "span", "seg": "seg", "scope": "scope", "def": "line", "mod": "mod", "lib": "lib"}
    for kind in KINDS:
        for it in debug.of(kind).values():
            for key in leads.keys() & it.keys():
                wrong += [f"{kind} {it['id']}: {key}={to}" for to in it[key].split("+") if to not in debug.of(leads[key])]
    return wrong


def differ(mine: Set[Tuple[object, ...]], other: Set[Tuple[object, ...]]) -> str:
    """Returns the elements that only one of two sets has."""
    return f"ours alone {sorted(map(str, mine - other))[:20]}\ncc65's alone {sorted(map(str, other - mine))[:20]}"


def compare(results: builds.Results, name: str, mine: Debug, other: Debug) -> None:
    """Compares with what cc65 wrote."""
    results.check(f"{name}: lines and addresses", mine.pairs() == other.pairs(), differ(mine.pairs(), other.pairs()))
    symbols = {it for it in other.symbols() if it[0] not in DEFINED}
    results.check(f"{name}: symbols", mine.symbols() == symbols, differ(mine.symbols(), symbols))
    results.check(f"{name}: types of data", mine.data() == other.data(), differ(mine.data(), other.data()))
    results.check(f"{name}: scopes", mine.scopes() == other.scopes(), differ(mine.scopes(), other.scopes()))
    results.check(f"{name}: segments", mine.segments() == other.segments(), differ(mine.segments(), other.segments()))
    sizes = mine.address_sizes(), other.address_sizes()
    results.check(f"{name}: address sizes", sizes[0] == sizes[1], differ(*sizes))
    scopes = mine.sizes_of_scopes(), other.sizes_of_scopes()
    results.check(f"{name}: sizes of scopes", scopes[0] == scopes[1], differ(*scopes))
    results.check(f"{name}: files", mine.files() == other.files(), differ({(it,) for it in mine.files()}, {(it,) for it in other.files()}))
    modules = [len(it.of("mod")) for it in (mine, other)]
    results.check(f"{name}: modules", modules[0] == modules[1], modules)


def main() -> None:
    program = os.path.abspath(sys.argv[1])
    results = builds.Results()
    with tempfile.TemporaryDirectory() as folder:
        os.mkdir(f"{folder}/small")
        for name, text in SMALL.items():
            builds.pages.put(f"{folder}/small/{name}", text)
        programs = [*builds.programs(folder), builds.Program("small", "small", "small.cfg", ["main.s", "other.s", "third.s"])]
        for it in programs if builds.has_cc65() else programs[:1]:
            here = f"{folder}/{it.folder}"
            builds.work65(program, here, "debug", "-o", "game.dbg", "--image", f"cc65-{it.name}/image", *it.words())
            mine = Debug(builds.text_of(f"{here}/game.dbg"))
            results.check(f"{it.name}: the file itself", not written(mine), written(mine))
            results.check(f"{it.name}: version", mine.text.startswith("version\tmajor=2,minor=0\ninfo\tcsym=0,file="))
            if it.name == "tricks":
                for pair in PAIRS:
                    results.check(f"{pair}", pair in mine.pairs(), mine.text)
            if builds.has_cc65():
                compare(results, it.name, mine, Debug(builds.by_cc65(it, folder).debug))
    if not builds.has_cc65():
        print("cc65 isn't here: debug files aren't compared with those of ld65 --dbgfile")
    results.end()


main()
