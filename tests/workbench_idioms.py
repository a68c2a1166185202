#!/usr/bin/env python3
"""Tests `work65 port` with one idiom of cc65's users at a time: the copy has the image recorded with the idiom, which is
cc65's own, or the recorded construct is reported.

usage: workbench_idioms.py BIN65. The last line is 'N passed, M failed'."""
import os
import re
import shutil
import sys
import tempfile

import pages
import porting

ROW = re.compile(r"^=== (\S+) (\S+) (gives|says) (.*)\n", re.M)


def rows():
    """Reads the idioms: name, target, files, and the image (or its length) or the reported construct."""
    parts = ROW.split(pages.read("tests/workbench/idioms.txt"))[1:]
    for name, target, kind, expected, text in zip(*(parts[at::5] for at in range(5))):
        files = re.split(r"^--- (\S+)\n", text, flags=re.M)
        yield name, target, dict(zip(files[1::2], files[2::2])) or {"a.s": text}, kind, expected


def is_image(found, expected):
    """Whether an image is the one that is written down."""
    if expected.endswith(" bytes"):
        return isinstance(found, bytes) and len(found) == int(expected.split()[0])
    return found == bytes.fromhex(expected)


def fault(program, row, has_cc65):
    """Returns what is wrong with an idiom, None if nothing is."""
    name, target, files, kind, expected = row
    with tempfile.TemporaryDirectory() as folder:
        porting.put_tree(f"{folder}/in", files)
        words = ["-t", target] if target != "none" else []
        theirs = porting.image(["ca65", *words], ["ld65"], f"{folder}/in", f"{folder}/cc") if has_cc65 else None
        if has_cc65 and not isinstance(theirs, bytes):
            return f"cc65 refuses it: {theirs}"
        status, said = porting.port(folder, target)
        if kind == "says":
            return None if status == 1 and f": {expected}: " in said else f"status {status}, {said}"
        if has_cc65 and not is_image(theirs, expected):
            return f"cc65 gives {theirs.hex(' ')}"
        ours = porting.image([program, "ca65"], [program, "ld65"], f"{folder}/out", f"{folder}/b")
        if status or not is_image(ours, expected) or theirs not in (None, ours):
            return f"status {status}, {said}{ours.hex(' ') if isinstance(ours, bytes) else ours}"
    return None


def main():
    program, passed, failed = os.path.abspath(sys.argv[1]), 0, 0
    os.environ["BIN65"] = program
    has_cc65 = shutil.which("ca65") is not None and shutil.which("ld65") is not None
    if not has_cc65:
        print("cc65 isn't installed: images are compared with what is written down alone")
    for row in rows():
        found = fault(program, row, has_cc65)
        passed, failed = passed + (found is None), failed + (found is not None)
        if found is not None:
            print(f"{row[0]}: {found}")
    print(f"{passed} passed, {failed} failed")
    sys.exit(failed > 0 or passed == 0)


main()
