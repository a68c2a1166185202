"""Starts the real program with fault_injection.c preloaded, for alloc_faults.py and io_faults.py."""

import os
import re
import subprocess
import sys
import tempfile

import launcher

HERE = os.path.dirname(os.path.abspath(__file__))
ROWS = os.path.join(HERE, "fault_injection.txt")


def build(folder):
    """Compiles fault_injection.c with the kit's own compiler and linker, and returns the name of the library."""
    page = subprocess.run(["rt", "doc"], capture_output=True, text=True, check=True).stdout.strip()
    kit = os.path.join(os.path.dirname(page), "toolchain")
    library = os.path.join(folder, "failing.so")
    words = ["--target=x86_64-unknown-linux-gnu", "--no-default-config", "-O1", "-fPIC", "-ffreestanding", "-shared", "-nostdlib"]
    words += [f"-fuse-ld={kit}/bin/ld.lld", "-o", library, os.path.join(HERE, "fault_injection.c"), f"{kit}/lib/libc.so.6"]
    subprocess.run([f"{kit}/bin/clang", *words], check=True)
    return library


class Run:
    """The result of a run, and the files after it."""

    def __init__(self, ended, files):
        self.status, self.out, self.err, self.files = ended.status, ended.out, ended.err, files
        self.report = ended.report.decode()

    def answer(self):
        return self.status, self.out, self.err, self.files


class Starter(launcher.Starter):
    """Starts the program with fault_injection.c preloaded."""

    def __init__(self, program):
        super().__init__(program)
        # Not in the folder of the runs, from which no code may come on some machines.
        self.built = tempfile.TemporaryDirectory(prefix="failing-")
        self.library = build(self.built.name)

    def run(self, words, failing):
        """Runs the program. `failing` tells fault_injection.c what to do."""
        environment = {"LD_PRELOAD": self.library, "FAILING": failing} if failing else {}
        return Run(self.start(words, environment), self.files())


def scenes():
    """Returns the rows of each scene."""
    with open(ROWS, encoding="ascii") as opened:
        text = opened.read().rstrip("\n")
    return [paragraph.split("\n") for paragraph in text.split("\n\n")]


def lines_of(text):
    return "".join(line + "\n" for line in text.split(" // ")).encode()


def wanted_of(row):
    """Returns the arguments of a run, and the status and texts that it must end with."""
    words, _, said = row.partition(" ==> ")
    lines = said.split(" // ") if said else []
    err = [line for line in lines if re.search(": (Error|Warning): ", line)]
    out = [line for line in lines if line not in err]
    status = int(any(": Error: " in line for line in err))
    return words.split(" "), (status, *("".join(line + "\n" for line in it).encode() for it in (out, err)))


class Tests:
    """Tries each run of each scene."""

    def __init__(self, program, trial):
        self.starter, self.trial = Starter(program), trial
        self.passed = self.failed = 0

    def check(self, name, why):
        """Counts a test as failed if there is a reason, else as passed."""
        self.passed, self.failed = self.passed + (not why), self.failed + bool(why)
        if why:
            print(f"{name}: FAILED: {why}", flush=True)

    def is_so(self, verb, name, rest, files):
        if verb == "absent":
            return name not in files
        return files.get(name) == (lines_of(rest) if verb == "says" else bytes.fromhex(rest))

    def row(self, files, row):
        """Checks the files after a row."""
        verb, _, rest = row.partition(" ")
        if verb == "$":
            words, wanted = wanted_of(rest)
            self.starter.restore(files)
            plain = self.starter.run(words, "")
            self.check(rest, plain.answer()[:3] != wanted and f"{plain.answer()[:3]}, not {wanted}")
            self.trial(self, rest, words, files, plain)
            return plain.files
        name, _, rest = rest.partition(" ")
        if verb in ("text", "bytes"):
            return {**files, name: lines_of(rest) if verb == "text" else bytes.fromhex(rest)}
        self.check(row, not self.is_so(verb, name, rest, files) and f"{files.get(name)}")
        return files

    def run(self):
        try:
            for scene in scenes():
                files = {}
                for row in scene:
                    files = self.row(files, row)
        finally:
            self.starter.close()
        print(f"{self.starter.starts} starts")
        print(f"{self.passed} passed, {self.failed} failed")
        sys.exit(self.failed != 0)


def created(report):
    """Returns the names of the files that a run created, in order."""
    calls = [line.rsplit(" ", 1)[0].split(" ", 1) for line in report.splitlines()]
    return [name for call, name in calls if call == "create"]


def is_written(found, before, plain, order):
    """Returns how many outputs of the plain run were written, if the files are those before the run with the first outputs and a first part of
    the next one; None if they aren't."""
    for count in range(len(order), -1, -1):
        files = {**before, **{name: plain[name] for name in order[:count]}}
        if found == files:
            return count
        if count < len(order):
            name = order[count]
            part = found.get(name)
            if part is not None and plain[name].startswith(part) and found == {**files, name: part}:
                return count
    return None
