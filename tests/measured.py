#!/usr/bin/env python3
"""Measures memory, about which no contract can say anything.

Calls that may not allocate are made once and many times (crates/tests_calls65): the number of requests must be the same. The linker keeps no
module and no record: its memory doesn't grow with the number of modules, and stays near the size of the image. The assembler keeps no
statement: its memory doesn't grow with the number of statements that emit nothing.

usage: measured.py BIN65    Prints the measurements; the last line is 'N passed, M failed'."""
import os
import re
import subprocess
import sys
import tempfile

import fault_injection
import results

CALLS = os.path.join(os.path.dirname(os.path.abspath(__file__)), "..", "crates", "tests_calls65", "out", "tests_calls65")
MEGABYTE = 1 << 20
SCRIPT = "MEMORY { M: start = 0, size = $2000000, file = %O; }\nSEGMENTS { CODE: load = M; }\n"
IMAGE = 8 * MEGABYTE
# Statements that emit nothing and define nothing, and then two that emit one byte or two.
STATEMENTS = [".code", ".p02", ".if 0\n.endif", ".assert 1, error", ".repeat 0\n.endrepeat", "; nothing", "nop", "lda #1"]


def put(folder, name, text):
    with open(f"{folder}/{name}", "w", encoding="ascii") as it:
        it.write(text)


def used(library, words, folder):
    """Runs a program, which must succeed. Returns its number of requests for memory, and the most bytes that it holds at once."""
    read, write = os.pipe()
    environment = {**os.environ, "LD_PRELOAD": library, "FAILING": "m0"}
    with open(read, encoding="ascii") as report:
        with subprocess.Popen(["bash", "-c", f'exec "$@" 100>&{write}', "bash", *words], cwd=folder, env=environment, pass_fds=[write]) as ran:
            os.close(write)
            said = report.read()
    found = re.search(r"(\d+) (\d+) given\n$", said)
    if not found or ran.returncode:
        sys.exit(f"{' '.join(words[:3])}: status {ran.returncode}, and it said {said!r}\n0 passed, 1 failed")
    return int(found[1]), int(found[2])


def calls(library, program, folder, checks):
    """Counts the requests of calls that may not allocate."""
    few, many = (used(library, [CALLS, str(times)], folder)[0] for times in (1, 1000))
    print(f"requests for memory of calls made once {few}, 1,000 times {many}")
    checks["calls that take no memory"] = few == many


def links(library, program, folder, checks):
    """Measures links of few and of many modules with the same number of bytes in total."""
    put(folder, "s.cfg", SCRIPT)
    found = []
    for count in (20, 400):
        put(folder, f"m{count}.s", f".res {IMAGE // count}, 1\n")
        subprocess.run([program, "ca65", "-o", f"m{count}.o", f"m{count}.s"], cwd=folder, check=True)
        found.append(used(library, [program, "ld65", "-C", "s.cfg", "-o", "out.bin", *[f"m{count}.o"] * count], folder)[1])
    print(f"a link of {IMAGE // MEGABYTE} MB: 20 modules {found[0] / MEGABYTE:.1f} MB, 400 modules {found[1] / MEGABYTE:.1f} MB")
    checks["more modules"] = found[1] - found[0] < MEGABYTE
    # (a segment's bytes, and the file's; records that were kept would be as many again)
    checks["near the image"] = max(found) < 2.25 * IMAGE


def sources(library, program, folder, checks):
    """Measures sources of few and of many statements. A statement that is kept would take 32 bytes or more."""
    for statement in STATEMENTS:
        found = []
        for count in (1000, 100000):
            put(folder, "n.s", f"{statement}\n" * count)
            found.append(used(library, [program, "ca65", "-o", "n.o", "n.s"], folder)[1])
        name = statement.split("\n")[0]
        print(f"{name}: 1,000 of it {found[0]:,} bytes, 100,000 {found[1]:,}")
        emitted = {"nop": 1, "lda #1": 2}.get(name, 0)
        # (the section's bytes and the object's, each in a list that grows by doubling)
        checks[f"many {name}"] = found[1] - found[0] < 10_000 + 100_000 * 4 * emitted


def main():
    program, checks = os.path.abspath(sys.argv[1]), {}
    # (not in the folder of the runs, from which no code may come on some machines)
    with tempfile.TemporaryDirectory() as folder, tempfile.TemporaryDirectory() as room:
        library = fault_injection.build(room)
        for measure in (calls, links, sources):
            measure(library, program, folder, checks)
    return results.report(checks)


if __name__ == "__main__":
    sys.exit(main())
