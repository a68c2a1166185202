#!/usr/bin/env python3
"""Checks texts before anything is proved: the layout of code, what types of the linker and the assembler hold, whether each
mutant can be applied, whether what the maintainers' pages cite exists, and whether a file has text of an installed cc65's.

usage: static_checks.py
The last line is 'N passed, M failed': one for each crate, mutant, claim and page, and one for the texts of cc65's."""
import glob
import os
import re
import subprocess
import sys

import check_docs
import check_streaming
import provenance
import reader


def in_disorder(root):
    """Returns the files of crates that aren't in the toolchain's layout."""
    files = [it for part in ("src", "specs", "proofs") for end in ("rt", "antt")
             for it in glob.glob(f"{root}/crates/*/{part}/**/*.{end}", recursive=True)]
    ran = subprocess.run([f"{reader.kit()}/bin/rattle", "fmt", "--check", *files], capture_output=True, text=True, check=False)
    found = re.findall(r"^(.*) is not in the layout$", ran.stdout + ran.stderr, re.M)
    return found or ([f"rattle fmt ended with status {ran.returncode}"] if ran.returncode else [])


def looked_at(root):
    """Yields each thing that is checked, and why it is wrong, or None."""
    yield from check_docs.looked_at(root)
    yield from provenance.looked_at(root)
    yield "layout of code", "run rt fmt: " + ", ".join(found[:5]) if (found := in_disorder(root)) else None
    for crate in reader.crates(root):
        folder = f"{root}/crates/{crate}"
        yield crate, check_streaming.why_kept(crate, reader.code_of(folder))
        edits = reader.edits_of(folder)
        there = glob.glob(f"{folder}/mutants/*") + glob.glob(f"{folder}/must-fail/*")
        others = [it for it in there if not it.endswith((".edit", ".md"))]
        if others or len({os.path.basename(it) for it in edits}) < len(edits):
            yield f"{crate}: mutants", f"{others[0]} is no edit" if others else "two have the same name"
        yield from ((os.path.relpath(it, root), reader.edited(it, folder)[1]) for it in edits)


def main():
    checked = list(looked_at(reader.ROOT))
    for name, why in checked:
        if why:
            print(f"{name}: {why}")
    failed = sum(bool(why) for _, why in checked)
    print(f"{len(checked) - failed} passed, {failed} failed")
    return 1 if failed else 0


if __name__ == "__main__":
    sys.exit(main())
