#!/usr/bin/env python3
"""Proves what isn't proved yet and builds the program: crates that don't depend on each other side by side.

usage: prove.py [CRATE..]    these libraries and those they depend on (default: the program, and those it depends on)
Each minute it prints how far it is, and at the end how long each crate took or, if one failed, what the prover said first.
A crate's out/prove.log has all that its proof printed. If no file changed since the program was built, it does nothing.

It uses the code of `rt` itself: two calls of `rt lib` don't run at the same time, since each locks the crates below its own,
and `rt all check` gives each crate one process and a processor also to crates that wait for others."""
import contextlib
import copy
import hashlib
import importlib.machinery
import importlib.util
import os
import re
import subprocess
import sys
import threading
import time

import reader
from progress import each_minute, first_reason, say, table

ROOT = reader.ROOT
PROGRAM = f"{ROOT}/crates/bin65/out/bin65"
SUM = f"{PROGRAM}.sum"
# What a proof takes, by which `rt` decides how many run at a time; in rare cases it takes 6 GB.
MEMORY = 4_000_000_000


def load():
    """Returns the toolchain's command `rt` as a module, set to take over what another checkout on this machine proved."""
    sys.dont_write_bytecode = True
    loader = importlib.machinery.SourceFileLoader("rt", f"{reader.kit()}/bin/rt")
    rt = importlib.util.module_from_spec(importlib.util.spec_from_loader("rt", loader))
    sys.modules["rt"] = rt
    loader.exec_module(rt)
    rt.rtlib.stop = rt.stop
    rt.rtlib.guarded()
    rt.share_work(True)
    return rt


def sum_of(files):
    """Returns a checksum of files, with their names."""
    found = hashlib.sha256()
    for file in files:
        with open(file, "rb") as it:
            found.update(f"{os.path.relpath(file, ROOT)}\0".encode() + it.read() + b"\0")
    return found.hexdigest()


def log_of(name):
    """Returns the file that has what a crate's proof printed, and makes its folder."""
    os.makedirs(f"{ROOT}/crates/{name}/out", exist_ok=True)
    return f"{ROOT}/crates/{name}/out/prove.log"


def lines_of(name):
    """Returns the lines that a crate's proof has printed."""
    with open(log_of(name), "a+", errors="replace") as it:
        it.seek(0)
        return it.read().split("\n")


class Proofs:
    """The proofs of crates, lowest first: which are proved, how long each took, and why one failed."""

    def __init__(self, rt, crates, proved):
        self.rt, self.crates, self.proved, self.running, self.took, self.why = rt, crates, proved, [], {}, {}

    def prove(self, crate, jobs):
        """Builds a library, unless it is proved or another one failed."""
        if self.why or crate in self.proved:
            return
        begun, made, failed = time.monotonic(), copy.copy(crate), True
        self.running.append(crate.name)
        with open(log_of(crate.name), "w", errors="replace") as made.out, contextlib.suppress(SystemExit):
            failed = made.build_rlib(["--jobs", str(jobs)], anew=False)
        self.running.remove(crate.name)
        self.took[crate.name] = time.monotonic() - begun
        if failed:
            self.why[crate.name] = first_reason(lines_of(crate.name))
        else:
            self.proved.add(crate)

    def run(self):
        """Proves the crates, those of the longest chain first, and returns whether all are proved."""
        tasks = {}
        for it in self.crates:
            size = 0 if it in self.proved else sum(map(os.path.getsize, reader.sources(it.folder)))
            waits = [(low.name, "proof") for low in it.below()]
            tasks[it.name, "proof"] = (waits, size, MEMORY, lambda given, jobs, it=it: self.prove(it, jobs))
        self.rt.in_lanes(tasks)
        return not self.why

    def progress(self):
        """Returns how many crates are proved, and how many functions of those that run, as their logs say last."""
        now = []
        for name in [*self.running]:
            far = re.findall(r"^so far: (\d+ of \d+ functions)", "\n".join(lines_of(name)), re.M)
            now.append(f"{name} ({far[-1]})" if far else name)
        return f"{len(self.proved)} of {len(self.crates)} crates proved; now {', '.join(now) or 'the program'}"

    def build(self):
        """Builds the program, and returns whether it is there."""
        begun = time.monotonic()
        # (with no arguments the program prints 'bad arguments', which is no failure of the build)
        with open(log_of("bin65"), "w") as log:
            how = {"stdin": subprocess.DEVNULL, "stdout": log, "stderr": log, "check": False}
            subprocess.run(["rt", "run"], cwd=f"{ROOT}/crates/bin65", **how)
        self.took["bin65"] = time.monotonic() - begun
        if not os.path.isfile(PROGRAM):
            self.why["bin65"] = first_reason(lines_of("bin65"))
        return os.path.isfile(PROGRAM)


def chosen(crates, names):
    """Returns the libraries that these, or the program, depend on, lowest first."""
    unknown = {*names} - {it.name for it in crates if not it.is_program}
    if unknown:
        sys.exit(f"no library of crates.txt: {', '.join(sorted(unknown))}")
    asked = [it for it in crates if (it.name in names if names else it.name == "bin65")]
    return [it for it in crates if not it.is_program and (it in asked or any(it in that.below() for that in asked))]


def main(names):
    rt = load()
    os.chdir(ROOT)
    every = sorted(rt.rtlib.crates_below(ROOT), key=lambda it: len(it.below()))
    files = [file for it in every for file in sorted(rt.rtlib.files_of(it.folder))]
    sources = sum_of([f"{reader.kit()}/KIT-ID", f"{ROOT}/crates.txt", *files])
    if not names and os.path.isfile(PROGRAM):
        if rt.rtlib.text_of(SUM) == sources + sum_of([PROGRAM]):
            return 0
        os.remove(PROGRAM)
    crates, held, proved = chosen(every, names), rt.rtlib.lock(every), set()
    for it in crates:
        if proved.issuperset(it.below()) and it.is_built():
            proved.add(it)
    proofs, ended = Proofs(rt, crates, proved), threading.Event()
    if len(proved) < len(crates):
        say(f"{len(crates) - len(proved)} crates to prove on {rt.processors()} processors. Later runs prove only what changed.")
    threading.Thread(target=each_minute, args=(ended, proofs.progress), daemon=True).start()
    is_proved = proofs.run()
    for it in held:
        os.close(it)
    is_done = is_proved and (bool(names) or proofs.build())
    ended.set()
    if proofs.took:
        table("How long each part took:", proofs.took.items())
    for name, why in proofs.why.items():
        say(f"{name}: NOT PROVED: {why[:600]} ({os.path.relpath(log_of(name), ROOT)} has the rest)")
    if is_done and not names:
        # Of the files as they were: what changed meanwhile isn't in the program.
        with open(SUM, "w") as it:
            it.write(sources + sum_of([PROGRAM]))
    return 0 if is_done else 1


if __name__ == "__main__":
    sys.exit(main(sys.argv[1:]))
