#!/usr/bin/env python3
"""Tests `work65 port` with random trees of two kinds: macros that set, spell and match names, and scripts. Each copy has the image
that cc65's tools make of the original tree, or a construct is reported.

usage: workbench_trees.py BIN65 [COUNT [SEED [KIND]]]. The last line is 'N passed, M failed'."""
import collections
import os
import random
import shutil
import sys
import tempfile

import porting
import random_macros
import random_scripts

KINDS = {"macros": random_macros.tree, "scripts": random_scripts.tree}
COUNT, SEED = 40, 65


def outcome(program, files):
    """Returns the result for a tree: the same image, a reported construct, a tree that cc65 rejects, or an unreported difference."""
    with tempfile.TemporaryDirectory() as folder:
        porting.put_tree(f"{folder}/in", files)
        theirs = porting.image(["ca65"], ["ld65"], f"{folder}/in", f"{folder}/cc")
        if not isinstance(theirs, bytes):
            return "refused by cc65", theirs
        status, said = porting.port(folder)
        if status:
            seen = "said" if "(MIGRATING: " in said else "said by the comparison alone"
            return seen if ": " in said and "work65: " not in said and "Traceback" not in said else "wrong", said
        ours = porting.image([program, "ca65"], [program, "ld65"], f"{folder}/out", f"{folder}/b")
        if not isinstance(ours, bytes):
            return "refused and not said", ours
        return ("the same" if theirs == ours else "another and not said"), f"{theirs.hex(' ')} | {ours.hex(' ')}"


def main():
    program = os.environ["BIN65"] = os.path.abspath(sys.argv[1])
    count = int(sys.argv[2]) if len(sys.argv) > 2 else COUNT
    seed = int(sys.argv[3]) if len(sys.argv) > 3 else SEED
    kinds = sys.argv[4:] or list(KINDS)
    if shutil.which("ca65") is None or shutil.which("ld65") is None:
        print("cc65 isn't installed: nothing is tried")
        print("0 passed, 0 failed")
        return
    passed = failed = 0
    for kind in kinds:
        found = collections.Counter()
        for number in range(count):
            files = KINDS[kind](random.Random(f"{kind} {seed} {number}"))
            what, why = outcome(program, files)
            found[what] += 1
            if what == "the same" or what.startswith("said"):
                passed += 1
            elif what != "refused by cc65":
                failed += 1
                print(f"{kind} {seed} {number}: {what}: {why}\n" + "".join(f"--- {name}\n{text}" for name, text in files.items()))
        print(f"{kind}: " + ", ".join(f"{number} {what}" for what, number in sorted(found.items())))
    print(f"{passed} passed, {failed} failed")
    sys.exit(failed > 0 or passed == 0)


main()
