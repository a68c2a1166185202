#!/usr/bin/env python3
"""Tests the real program on inputs that announce large counts, nest deeply or are very long, with memory in proportion to their bytes.

usage: hostile.py BIN65    Prints a line for each test; the last line is 'N passed, M failed'.
"""

import os
import resource
import shutil
import subprocess
import sys
import tempfile

from large import get, literals, number, record

S1 = (
    "MEMORY { ROM: start = $8000, size = $10; } "
    "SEGMENTS { CODE: load = ROM, type = ro; DATA: load = ROM, type = ro, optional = yes; }"
)
# The limits of a run; a list of 20,000 names takes more.
LITTLE, MUCH = 32 << 20, 256 << 20
CHAIN, USED = 20000, 8000


class Tests:
    def __init__(self, program):
        self.program, self.passed, self.failed = program, 0, 0

    def run(self, memory, *words):
        """Runs the program with a bound on memory, and returns its status and texts."""
        limit = lambda: resource.setrlimit(resource.RLIMIT_AS, (memory, memory))
        ran = subprocess.run([self.program, *words], stdin=subprocess.DEVNULL, capture_output=True, timeout=60, preexec_fn=limit)
        return ran.returncode, ran.stdout, ran.stderr

    def check(self, name, found, wanted):
        is_right = found == wanted
        self.passed, self.failed = self.passed + is_right, self.failed + (not is_right)
        print(f"{name}: " + ("ok" if is_right else f"FAILED: {str(found)[:300]}, not {str(wanted)[:300]}"), flush=True)

    def refused(self, name, message, *words, memory=LITTLE):
        self.check(name, self.run(memory, *words), (1, b"", message + b"\n"))


QUIET = (0, b"", b"")


def put(name, file):
    with open(name, "wb") as opened:
        opened.write(file.encode() if isinstance(file, str) else file)


def linked(tests, name, wanted, *modules, memory=LITTLE):
    """Assembles modules, links them, and compares the image."""
    for module in modules:
        tests.check(f"{name}: {module}.s", tests.run(memory, "ca65", f"{module}.s"), QUIET)
    ran = tests.run(memory, "ld65", "-C", "s.cfg", *(f"{module}.o" for module in modules))
    tests.check(name, (ran, get("a.out")), (QUIET, wanted))


def section(size):
    return record(2, number(size, 4) + b"\0CODE")


def object_of(*records, version=1):
    return b"R65o%c" % version + b"".join(records) + record(8, b"")


def place(version):
    """Returns the bytes of a location: line 1, in version 2 of the first file."""
    return number(0, 4) * (version - 1) + number(1, 4)


def long_lines(tests):
    """Tests lines of 2,040 operators: folded to a number, or rejected for too many parts."""
    put("b.s", ".byte 5" + "+0" * 2040 + "\n")
    tests.check("2,040 operators", (tests.run(LITTLE, "ca65", "b.s"), get("b.o")), (QUIET, object_of(section(1), literals(b"\5"), version=2)))
    put("b.s", ".import v\n.byte <v" + "+v" * 2039 + "\n")
    tests.refused("2,039 operators and an import", b"b.s:2: Error: expression too large", "ca65", "b.s")
    put("b.s", ".byte " + "1||" * 1360 + "0\n.byte " + "1<" * 2040 + "1\n")
    tests.check("1,360 and 2,040 others", (tests.run(LITTLE, "ca65", "b.s"), get("b.o")), (QUIET, object_of(section(2), literals(b"\1\1"), version=2)))


def deep_forms(tests):
    """Tests forms that fill a record of either version with nested operations: as many as fit, and one fewer."""
    leaf = b"\2" + bytes(4)
    for version in (1, 2):
        files, most = [record(9, b"a.s")] * (version - 1), 4095 - len(place(version)) - len(leaf)
        head = [*files, record(1, b"v"), section(2)]
        for operation in (0x10, 0x11, 0x12, 0x15):
            for count in (most - 1, most):
                value = record(5, b"\1" + place(version) + bytes([operation]) * count + leaf)
                put("a.o", object_of(*head, value, version=version))
                what = f"{count} operations {operation:x} of a value of version {version}"
                tests.refused(what, b"a.o: Error: not canonical", "ld65", "-C", "s.cfg", "a.o")
        export = record(6, b"\1e" + place(version) + b"\x10" * (most - 1) + leaf)
        put("a.o", object_of(*files, record(1, b"v"), export, version=version))
        what = f"{most - 1} operations of an export of version {version}"
        tests.refused(what, b"a.o: Error: not canonical", "ld65", "-C", "s.cfg", "a.o")
        tests.refused(f"{what}, in a library", b"a.o: Error: member is not an object", "ar65", "r", "l.lib", "a.o")
        put("a.o", object_of(*head, record(5, b"\1" + place(version) + b"\x27" * (most + 5)), version=version))
        tests.refused(f"operations of version {version} without an end", b"a.o: Error: bad size", "ld65", "-C", "s.cfg", "a.o")


def promises(tests):
    """Tests counts and sizes of 2^32 - 1 that no bytes follow."""
    most = b"\xff" * 4
    put("main.o", object_of(record(1, b"v"), section(2), record(5, b"\1" + number(1, 4) + b"\2" + bytes(4))))
    head = b"R65l\1"
    indexes = {
        "members": head + most,
        "exports": head + number(1, 4) + b"\3a.o" + number(8, 4) + most,
        "imports": head + number(1, 4) + b"\3a.o" + number(8, 4) + number(0, 4) + most,
        "a name's bytes": head + number(1, 4) + b"\xff",
    }
    for what, file in indexes.items():
        put("l.lib", file)
        for words in (["ld65", "-C", "s.cfg", "main.o", "l.lib"], ["ar65", "t", "l.lib"], ["ar65", "r", "l.lib", "main.o"]):
            tests.refused(f"a library that promises {what}: {words[0]} {words[1]}", b"l.lib: Error: library cut short", *words)
    put("l.lib", head + number(1, 4) + b"\3a.o" + most + bytes(8))
    tests.refused("a library that promises a member's bytes", b"l.lib: Error: bad index", "ar65", "t", "l.lib")
    for what, file, fault in (
        ("a section", object_of(record(2, most + b"\0CODE")), b"bad size"),
        ("the largest section", b"R65o\1" + section(1 << 24), b"object cut short"),
        ("room", b"R65o\1" + section(1 << 24) + record(4, most), b"bad size"),
        ("a record", b"R65o\1\1\0\x10", b"object cut short"),
        ("a longer record", b"R65o\1\1\1\x10", b"bad size"),
        ("a file's name", b"R65o\2\x09\0\x10", b"object cut short"),
        ("a longer one", b"R65o\2\x09\1\x10", b"bad size"),
        ("files", b"R65o\2" + record(9, b"a.s") + record(6, b"\1e" + most + number(1, 4) + b"\0" + bytes(8)), b"index out of range"),
    ):
        put("a.o", file)
        tests.refused(f"an object that promises {what}", b"a.o: Error: " + fault, "ld65", "-C", "s.cfg", "a.o")


def large_areas(tests):
    """Tests an area of 4 GB: its contents fit, and its fill doesn't, for lack of memory."""
    put("b.s", "nop\n")
    tests.check("a source", tests.run(LITTLE, "ca65", "b.s"), QUIET)
    put("l.cfg", "MEMORY { A: start = 0, size = $FFFFFFFF; } SEGMENTS { CODE: load = A; }")
    ran = tests.run(LITTLE, "ld65", "-C", "l.cfg", "-o", "image", "b.o")
    tests.check("an area of 4 GB", (ran, get("image")), (QUIET, b"\xea"))
    os.remove("image")
    filled = "MEMORY { A: start = 0, size = $FFFFFFFF, fill = yes; } SEGMENTS { CODE: load = A; }"
    apart = "MEMORY { A: start = 0, size = $FFFFFFFF; } SEGMENTS { CODE: load = A, start = $FFFFFF00; }"
    for name, script in (("a filled one", filled), ("one with a row at its end", apart)):
        put("l.cfg", script)
        ran = tests.run(LITTLE, "ld65", "-C", "l.cfg", "-o", "image", "b.o")
        tests.check(name, (ran, get("image")), ((1, b"", b"ld65: Error: out of memory\n"), None))


def long_chains(tests):
    """Tests chains of constants of one module, and of exports of two modules in turn, each the value of the next."""
    chain = "".join(f"a{at} = a{at + 1}\n" for at in range(CHAIN))
    put("b.s", f".byte a0\n{chain}a{CHAIN} = 7\n")
    linked(tests, "a chain of 20,000 constants", b"\7", "b", memory=MUCH)

    def module(first):
        lines = []
        for at in range(first, CHAIN + 1, 2):
            lines += [f".export a{at}", f"a{at} = 7"] if at == CHAIN else [f".export a{at}", f".import a{at + 1}", f"a{at} = a{at + 1}"]
        return "".join(line + "\n" for line in lines)

    put("m1.s", module(0))
    put("m2.s", module(1))
    put("main.s", ".import a0\n.byte a0\n")
    linked(tests, "a chain of 20,000 exports", b"\7", "main", "m1", "m2", memory=MUCH)


def used_chains(tests):
    """Tests that 8,000 lines which use the first of 8,000 constants, each the value of the next, take at most ten seconds of a processor."""
    chain = [f"a{at} = a{at + 1}" for at in range(USED)]
    uses, last = ["lda a0"] * USED, f"a{USED} = 7"
    inner = [line for at in range(USED) for line in (f"c{at} = {'g' if not at else f'c{at - 1} + 1'}", f"lda c{at}")]
    circular = (1, b"", b"b.s:1: Error: circular definition\n")
    sources = {
        "used before it ends": ([*chain, *uses, last], QUIET),
        "used while it grows": ([line for pair in zip(chain, uses) for line in pair] + [last], QUIET),
        "used when it has ended": ([*chain, last, *uses], QUIET),
        "that is circular": ([*chain, f"a{USED} = a0", *uses], circular),
        "over an undefined name": ([*chain, *uses], (1, b"", f"b.s:1: Error: undefined name: a{USED}\n".encode())),
        "over an import": ([".import f", "b0 = f + 1", *(f"b{at} = b{at - 1}" for at in range(1, USED)), *[f"lda b{USED - 1}"] * USED], QUIET),
        "in a scope over an outer constant": (["g = 1", ".scope", *inner, ".endscope"], QUIET),
    }
    for name, (lines, wanted) in sources.items():
        put("b.s", "\n".join(lines) + "\n")
        before = resource.getrusage(resource.RUSAGE_CHILDREN).ru_utime
        ran = tests.run(MUCH, "ca65", "b.s")
        seconds = resource.getrusage(resource.RUSAGE_CHILDREN).ru_utime - before
        tests.check(f"a chain of {USED} constants {name}", (ran, seconds <= 10), (wanted, True))


def main():
    tests = Tests(os.path.abspath(sys.argv[1]))
    folder = tempfile.mkdtemp(prefix="hostile-")
    os.chdir(folder)
    try:
        put("s.cfg", S1)
        for part in (long_lines, deep_forms, promises, large_areas, long_chains, used_chains):
            part(tests)
    finally:
        os.chdir("/")
        shutil.rmtree(folder)
    print(f"{tests.passed} passed, {tests.failed} failed")
    sys.exit(tests.failed != 0)


if __name__ == "__main__":
    main()
