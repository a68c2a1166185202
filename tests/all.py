#!/usr/bin/env python3
"""The merge gate: `rt ci`, which repeats every proof and runs the tests of crates; beside it first the checks of texts, and
once the program is built, its tests on real files and the mutants of functions that this landing changed.

usage: all.py    ALL_LANES is how many scripts run at a time (default: half the number of processors).
Each minute a line says how far the proofs are. The lines before the last say which part failed and why; the last line is 'N
passed, M failed'."""
import hashlib
import os
import re
import subprocess
import sys
import threading
import time
from concurrent.futures import ThreadPoolExecutor

ROOT = os.path.dirname(os.path.dirname(os.path.realpath(__file__)))
sys.path.insert(0, f"{ROOT}/gate")
sys.dont_write_bytecode = True
import reader  # noqa: E402
from progress import clock, each_minute, first_reason, say, table  # noqa: E402

PROGRAM = f"{ROOT}/crates/bin65/out/bin65"
# The last line of a part: also that of gate/mutants.py, for which it is no failure that there is none to try.
COUNTS = re.compile(r"(\d+) (passed, (\d+) failed|refused, (\d+) not)")
# The lines of a failed part that describe its failure.
FAILURE = re.compile(r"FAILED|failed:|NOT |not proved|Error|error|: expected", re.I)

# These need no program and take a minute together.
TEXTS = [
    ("texts and layout", ["python3", "gate/static_checks.py"]),
    ("the tools of the gate", ["python3", "tests/gate.py"]),
    ("the renaming tool", ["python3", "tests/rename.py"]),
    ("links of pages", ["python3", "tests/links.py"]),
    ("what the statement reaches", ["python3", "tests/audit.py"]),
    ("types of work65", ["python3", "tests/workbench_types.py"]),
    ("units of work65", ["python3", "tests/workbench_units.py"]),
    ("completions", ["python3", "tests/completion.py"]),
]
# With the program that `rt ci` builds, the longest first.
SCRIPTS = [
    "hostile", "large", "workbench_port", "workbench_random", "workbench_trees", "workbench_idioms", "io_faults", "alloc_faults",
    "fuzz", "one_program", "second_builds", "cases", "disk", "sums", "version1",
    "migrating", "differences", "cc65_scripts", "tutorial", "language", "messages", "editors", "makefile", "machines", "second",
    "labels", "workbench_list", "workbench_labels", "workbench_debug", "workbench_deps", "workbench_size",
    "workbench_cycles", "workbench_bad",
    "workbench_check", "workbench_faults", "workbench_lexer", "translating", "translating_cc65",
    "packaging", "release",
]
EXAMPLES = ["first", "programs", "library", "sizes"]
# It also needs the program of tests_calls65, which `rt ci` may build last.
LAST = ["measured"]
MUTANTS = ("mutants of changed functions", ["python3", "gate/mutants.py", "--changed"])


PRINTING = threading.Lock()


def show(text):
    """Prints lines in one piece, since parts that run in parallel print, too."""
    with PRINTING:
        sys.stdout.write(f"{text}\n")
        sys.stdout.flush()


class Part:
    """A part of the gate: what it printed, how long it took, and how much of it passed."""

    def __init__(self, name, words):
        self.name, self.words, self.lines, self.seconds = name, words, [], 0.0
        self.passed, self.failed = 0, 1

    def read(self, line):
        """Reads a line that the part printed."""
        self.lines.append(line)

    def run(self):
        """Runs the part and counts by its last line; a part that says no counts passes or fails as a whole."""
        begun = time.monotonic()
        how = {"stdin": subprocess.DEVNULL, "stdout": subprocess.PIPE, "stderr": subprocess.STDOUT, "errors": "replace"}
        with subprocess.Popen(self.words, cwd=ROOT, **how) as ran:
            for line in map(str.rstrip, ran.stdout):
                self.read(line)
        self.seconds = time.monotonic() - begun
        counts = [it for it in map(COUNTS.fullmatch, self.lines) if it]
        if counts:
            self.passed, self.failed = int(counts[-1][1]), int(counts[-1][3] or counts[-1][4])
        elif self.words[0] == "sh":
            self.passed, self.failed = int(ran.returncode == 0), int(ran.returncode != 0)
        if not self.failed and (ran.returncode or not self.passed and not counts[-1][4]):
            # (one that tried nothing has failed)
            self.failed = 1
        return self

    def told(self):
        """Prints that it ended, with what it printed if it failed."""
        lines = [f"    {it}" for it in self.lines] if self.failed else []
        show("\n".join([f"{clock(self.seconds):>7}  {self.name}: {self.passed} passed, {self.failed} failed", *lines]))

    def why(self):
        """Returns the first lines that say why it failed, or else its last ones."""
        said = [it.strip() for it in self.lines if not COUNTS.fullmatch(it.strip())]
        return [it[:500] for it in ([it for it in said if FAILURE.search(it)][:3] or said[-3:])]


class Proofs(Part):
    """`rt ci`: it prints the lines that are about a crate, a mutant or a test, and at once why one isn't proved."""

    ENDED = re.compile(r"rt: (\w+)(: its tests are)? (proved|NOT PROVED|is kept)\b")
    # Its lines about a mutant, a test or a run that failed.
    FAILED = re.compile(
        r"rt: (?!FAILED).*(FAILED|NOT REFUSED|NOT TRIED|BAD EDIT|was stopped by|ended with status|had not ended|differ first at)")

    def __init__(self, when_built):
        super().__init__("rt ci", ["rt", "ci"])
        self.when_built, self.block, self.reasons, self.ended, self.begun = when_built, [], [], {}, time.monotonic()
        self.crates = reader.crates()

    def read(self, line):
        """Shows a line if it is one of `rt` itself, and why a crate or a mutant failed."""
        self.lines.append(line)
        if line.startswith("== "):
            self.block = []
        self.block.append(line)
        found, why = self.ENDED.match(line), None
        if found and found[3] == "NOT PROVED":
            why = f"{found[1]}{found[2] or ''}: not proved: {first_reason(self.block[1:-1])}"
        elif not found and self.FAILED.match(line):
            why = line.removeprefix("rt: ")
        if line.startswith("rt: "):
            show(f"  {time.strftime('%H:%M:%S')} {line.removeprefix('rt: ')}")
        if why:
            self.reasons.append(why)
            show(f"  why: {why[:600]}")
        if found:
            self.block = []
        if found and not found[2] and not why:
            self.ended[found[1]] = time.monotonic() - self.begun
            if found[1] == "bin65":
                self.when_built()

    def progress(self):
        """Returns how many crates are proved, and which could be next: all those below them are."""
        ready = [it for it in self.crates if it not in self.ended and reader.below(it, self.crates) <= {*self.ended}]
        return f"{len(self.ended)} of {len(self.crates)} crates proved; now or next {', '.join(ready) or 'tests'}"

    def run(self):
        ended = threading.Event()
        threading.Thread(target=each_minute, args=(ended, self.progress), daemon=True).start()
        super().run()
        ended.set()
        self.lines = [f"FAILED: {it}" for it in self.reasons] or self.lines[-20:]
        table("Minutes after which each crate was proved:", self.ended.items())
        return self


class Beside:
    """The parts that run beside the proofs, several at a time; the mutants, which use what `rt ci` has just built, at once."""

    def __init__(self, lanes):
        self.pool, self.parts, self.mutants = ThreadPoolExecutor(lanes), [], ThreadPoolExecutor(1)

    def start(self, parts, pool=None):
        for it in parts:
            self.parts.append(it)
            (pool or self.pool).submit(self.end, it)

    def end(self, part):
        """Runs a part and prints how it ended. A part that can't be run has failed."""
        try:
            part.run()
        except OSError as error:
            part.lines.append(f"FAILED: {error}")
        part.told()

    def start_scripts(self):
        """Starts what needs the program and what was built below it, if the program is built and they haven't been started."""
        if len(self.parts) == len(TEXTS) and os.path.isfile(PROGRAM):
            self.start([Part(*MUTANTS)], self.mutants)
            self.start([*map(script, SCRIPTS), Part("program", ["bash", "tests/program.sh", PROGRAM])])
            self.start([Part(f"example/{it}", ["sh", f"example/{it}.sh", PROGRAM]) for it in EXAMPLES])

    def wait(self):
        """Waits until all parts have ended."""
        self.pool.shutdown()
        self.mutants.shutdown()


def script(name):
    return Part(name, ["python3", f"tests/{name}.py", PROGRAM])


def main():
    # (a make that a test calls is a user's own: one that knows itself below another says which folders it enters)
    for it in ("MAKEFLAGS", "MAKELEVEL", "MFLAGS"):
        os.environ.pop(it, None)
    begun, processors = time.monotonic(), len(os.sched_getaffinity(0))
    beside = Beside(int(os.environ.get("ALL_LANES", 0)) or max(1, processors // 2))
    beside.start([Part(*it) for it in TEXTS])
    proofs = Proofs(beside.start_scripts).run()
    proofs.told()
    is_built = os.path.isfile(PROGRAM)
    beside.start_scripts()
    beside.start([script(it) for it in LAST if is_built])
    beside.wait()
    parts = [*beside.parts, proofs]
    if is_built:
        with open(PROGRAM, "rb") as it:
            print(f"The program: {hashlib.sha256(it.read()).hexdigest()}")
    else:
        missing = Part("the scripts", [])
        missing.lines = ["FAILED: none was run, since rt ci built no program"]
        parts.append(missing)
    used = os.times()
    say(f"The gate took {clock(time.monotonic() - begun)} on {processors} processors, and "
        f"{clock(used.children_user + used.children_system)} of one; the longest parts:")
    for it in sorted(parts, key=lambda it: -it.seconds)[:8]:
        print(f"{clock(it.seconds):>10}  {it.name}")
    for it in filter(lambda it: it.failed, parts):
        print(f"{it.name} failed:", *it.why(), sep="\n  ")
    failed = sum(it.failed for it in parts)
    print(f"{sum(it.passed for it in parts)} passed, {failed} failed")
    return 1 if failed else 0


if __name__ == "__main__":
    sys.exit(main())
