#!/usr/bin/env python3
"""Prints which goals of a crate's proof take longest, by the steps that its last checks kept: a million are about a second.

usage: proof_cost.py CRATE [COUNT]    after `gate/prove.py CRATE`, or `rt check` in its folder; COUNT goals and files (20)
Kept steps of functions that have changed since are counted too, until crates/CRATE/out/incremental is removed."""
import glob
import os
import re
import sys

import reader

DECLARATION = re.compile(rb'"name":"([^"]+)","notes":.*?"steps":\[(\d+),(\d+),\d+\]', re.S)


def goals(crate):
    """Yields the steps of each declaration that a check of the crate kept, its name and its file."""
    for record in glob.glob(f"{reader.ROOT}/crates/{crate}/out/incremental/*/records/*"):
        file = os.path.basename(record).partition("-proofs.")[2].removesuffix(".decls.oantt")
        if file:
            with open(record, "rb") as it:
                found = DECLARATION.finditer(it.read())
            yield from ((int(it[2]) + int(it[3]), it[1].decode(), file) for it in found)


def main(words):
    if not words or words[0] not in reader.crates():
        sys.exit(__doc__)
    count = int(words[1]) if len(words) > 1 else 20
    every = sorted(goals(words[0]), reverse=True)
    files = {}
    for steps, _, file in every:
        files[file] = files.get(file, 0) + steps
    print(f"{len(every)} declarations, {sum(files.values()) / 1e6:.1f} million steps")
    print(*(f"{steps / 1e6:8.1f}  {file}: {name}" for steps, name, file in every[:count]), sep="\n")
    print("By file:", *(f"{files[it] / 1e6:8.1f}  {it}" for it in sorted(files, key=files.get, reverse=True)[:count]), sep="\n")
    return 0


if __name__ == "__main__":
    sys.exit(main(sys.argv[1:]))
