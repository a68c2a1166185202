#!/usr/bin/env python3
"""Tests `work65 deps`: it names the files that cc65's `ca65 --create-dep` names, and also files that are missing.
If cc65 isn't installed, the rules are only compared with those recorded here.

usage: workbench_deps.py BIN65. The last line is 'N passed, M failed'."""
import os
import subprocess
import sys
import tempfile
from typing import Dict, List, NamedTuple, Set

import workbench_builds as builds

FILES: Dict[str, str] = {
    "src/a.s": """        .include "near.inc"
        .include "far.inc"
.ifdef OTHER
        .include "other.inc"
.else
        .include "sub/deep.inc"
.endif
        picture "one.bin"
        .repeat 2
        picture "sub/two.bin"
        .endrepeat
        source "given.inc"
.if SHORT < 3
        .incbin "never.bin"
.endif
        .end
        .include "behind.inc"
""",
    "src/near.inc": """.macro picture name
        .incbin name
.endmacro
.macro source name
        .include name
.endmacro
""",
    "src/sub/deep.inc": '        .include "below.inc"\n        .incbin "one.bin", 1\n',
    "src/sub/below.inc": "SHORT = 3\n",
    "src/sub/one.bin": "12",
    "src/sub/two.bin": "12",
    "src/one.bin": "1",
    "src/given.inc": "        nop\n",
    "src/other.inc": "SHORT = 4\n",
    "first/far.inc": "; first\n",
    "second/far.inc": "; second\n",
    "second/near.inc": '.error "the folder of the file comes first"\n',
    "missing.s": '        .incbin "gone.bin"\n        .include "none.inc"\nl:      .incbin "x.bin"\n        .include "src/given.inc"\n',
    "wrong.s": '        .include "src/given.inc"\n        bogus\n        .incbin "gone.bin"\n        .include "none.inc"\n        .incbin "src/one.bin"\n',
    "a b.s": "        nop\n",
}


class Case(NamedTuple):
    """A line of work65 deps, and the names that its rules have."""

    words: List[str]
    names: List[str]


CASES = [
    Case(
        ["-I", "first", "-I", "second", "src/a.s"],
        "src/a.s src/near.inc first/far.inc src/sub/deep.inc src/sub/below.inc src/sub/one.bin".split()
        + "src/one.bin src/sub/two.bin src/given.inc".split(),
    ),
    Case(
        ["-I", "second", "-D", "OTHER", "src/a.s"],
        "src/a.s src/near.inc second/far.inc src/other.inc src/one.bin src/sub/two.bin src/given.inc".split(),
    ),
    Case(
        ["-I", "first", "-D", "OTHER=1", "./src/a.s"],
        "./src/a.s ./src/near.inc first/far.inc ./src/other.inc ./src/one.bin ./src/sub/two.bin ./src/given.inc".split(),
    ),
]


def names_of(rules: str) -> List[str]:
    """Returns the names after the target of the first rule."""
    return rules.split("\n")[0].partition(": ")[2].split(" ")


def by_ca65(folder: str, words: List[str]) -> Set[str]:
    """The names that ca65 gives."""
    subprocess.run(["ca65", "--create-dep", "cc65.dep", "-o", "cc65.o", *words], cwd=folder, check=True)
    return {os.path.normpath(it) for it in builds.text_of(f"{folder}/cc65.dep").split("\n")[0].partition(":")[2].split()}


def written(results: builds.Results, program: str, folder: str) -> None:
    """Cases that are written here."""
    for case in CASES:
        said = builds.work65(program, folder, "deps", *case.words).stdout
        results.check(f"deps {case.words}", names_of(said) == case.names, said)
        if builds.has_cc65():
            theirs = by_ca65(folder, case.words)
            results.check(f"{case.words}: ca65 --create-dep", {os.path.normpath(it) for it in names_of(said)} == theirs, f"{said}\n{theirs}")
    ran = builds.work65(program, folder, "deps", "missing.s", status=1)
    results.check("what is missing", names_of(ran.stdout) == ["missing.s", "gone.bin", "none.inc", "x.bin", "src/given.inc"], ran.stdout)
    is_said = all(f"{it} isn't there" in ran.stderr for it in ("gone.bin", "none.inc", "x.bin"))
    results.check("and is said", is_said, ran.stderr)
    ran = builds.work65(program, folder, "deps", "wrong.s", status=1)
    results.check("behind a fault", names_of(ran.stdout) == ["wrong.s", "src/given.inc", "gone.bin", "none.inc", "src/one.bin"], ran.stdout)
    is_said = all(it in ran.stderr for it in ("statement not understood", "gone.bin isn't there", "none.inc isn't there"))
    results.check("and the fault is said, and what is missing", is_said, ran.stderr)
    ran = builds.work65(program, folder, "deps", f"{folder}/src/given.inc", "a b.s", "--object", "x.o", status=2)
    said = builds.work65(program, folder, "deps", "a b.s", "--object", "out/x.o").stdout
    results.check("names that make would part", said == "out/x.o: a\\ b.s\n", said)
    absolute = f'        .include "{folder}/src/given.inc"\n        .incbin "{folder}/src/one.bin"\n'
    builds.pages.put(f"{folder}/absolute.s", absolute)
    said = builds.work65(program, folder, "deps", "absolute.s").stdout
    results.check("whole paths", names_of(said) == ["absolute.s", f"{folder}/src/given.inc", f"{folder}/src/one.bin"], said)


def with_make(results: builds.Results, program: str, folder: str) -> None:
    """make takes the rules: a file that is newer has the object made again, and one that is gone stops nothing."""
    rules = builds.work65(program, folder, "deps", "-I", "first", "-I", "second", "src/a.s", "-o", "rules").stdout
    results.check("-o", rules == "")
    builds.pages.put(f"{folder}/Makefile", "all: src/a.o\n%.o: %.s\n\techo made $< > $@; echo made\ninclude rules\n")

    def make() -> str:
        return subprocess.run(["make", "-s"], cwd=folder, capture_output=True, text=True).stdout

    results.check("make builds", make() == "made\n")
    results.check("and then not", make() == "")
    os.utime(f"{folder}/src/sub/two.bin", (2_000_000_000, 2_000_000_000))
    results.check("a newer file", make() == "made\n")
    os.utime(f"{folder}/src/sub/two.bin", (1, 1))
    make()
    os.remove(f"{folder}/src/given.inc")
    results.check("a file that is gone", make() == "made\n")


def main() -> None:
    program = os.path.abspath(sys.argv[1])
    results = builds.Results()
    with tempfile.TemporaryDirectory() as folder:
        for name, text in FILES.items():
            os.makedirs(os.path.dirname(f"{folder}/{name}"), exist_ok=True)
            builds.pages.put(f"{folder}/{name}", text)
        written(results, program, folder)
        with_make(results, program, folder)
        if builds.has_cc65():
            for it in builds.programs(f"{folder}/programs"):
                here = f"{folder}/programs/{it.folder}"
                for source in it.sources:
                    said = builds.work65(program, here, "deps", *it.options, source).stdout
                    theirs = by_ca65(here, [*it.options, source])
                    mine = {os.path.normpath(name) for name in names_of(said)}
                    results.check(f"{it.name}, {source}", mine == theirs, f"{said}\n{theirs}")
        else:
            print("cc65 isn't here: files aren't compared with those of ca65 --create-dep")
    results.end()


main()
