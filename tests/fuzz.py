#!/usr/bin/env python3
"""A seeded trial: objects, libraries, scripts and sources of the cases are changed, cut and spliced, and given to the real program. Each run must
end by itself within 10 seconds, with status 0, or with status 1 and a message of one of the documented forms; a rejected run writes no file.

usage: fuzz.py BIN65 [--seed N] [--first N] [--count N] [--seconds N]

Runs --count trials from number --first on, or as many as begin within --seconds. A failed trial prints what it ran; --first and --count 1
repeat it. The last line is 'N passed, M failed'.
"""

import argparse
import collections
import glob
import os
import random
import re
import sys
import time

import cases
import launcher
from fuzz_mutators import changed
from message_forms import WARNINGS, is_message

HERE = os.path.dirname(os.path.abspath(__file__))
KINDS = ("object", "library", "script", "source")
# Cases of larger files are left out.
MOST = 4096
MEMORY = 1 << 29

Target = collections.namedtuple("Target", "kind files words name")


def kind_of(name, file, words):
    if file.startswith(b"R65o"):
        return "object"
    if file.startswith(b"R65l"):
        return "library"
    if "-C" in words and words.index("-C") + 1 < len(words) and name == words[words.index("-C") + 1]:
        return "script"
    return "source" if words[0] == "ca65" else None


def targets_of(files, words):
    """Returns the files that may be changed before a run: those that the program may read."""
    found = []
    for name, file in files.items():
        kind = kind_of(name, file, words)
        if kind and (name in words or kind == "source"):
            found.append(Target(kind, files, words, name))
            if kind == "object":
                found.append(Target(kind, files, ["ar65", "r", "new.lib", name], name))
            if kind == "library":
                found += [Target(kind, files, ["ar65", letter, name], name) for letter in "tx"]
                members = [it for it in files if it.endswith(".o")][:1]
                found += [Target(kind, files, ["ar65", letter, name, *members], name) for letter in "rd"]
    return found


def is_small(case):
    return sum(map(len, case.files.values())) <= MOST and not any(it.startswith("/") for it in case.files)


def corpus(starter, rng):
    """Returns the targets of each kind, from cases that are small and end quickly: some that link or archive, and others that assemble a source."""
    paths = sorted(glob.glob(os.path.join(HERE, "cases", "*.txt")))
    small = [case for path in paths for case in cases.Reader(path).read() if is_small(case)]
    links = [case for case in small if any(it.words[0] != "ca65" for it in case.all_commands())]
    others = [case for case in small if all(it.words[0] == "ca65" for it in case.all_commands())]
    targets = {kind: [] for kind in KINDS}
    for case in rng.sample(links, min(200, len(links))) + rng.sample(others, 200):
        starter.restore(case.files)
        for command in case.all_commands():
            before = starter.files()
            is_line = b": Error: bad arguments" not in starter.start(command.words).err
            if is_line and starter.took < 0.02 and not any(word.startswith("/") for word in command.words):
                for it in targets_of(before, command.words):
                    targets[it.kind].append(it)
    return targets


def messages_of(text):
    """Returns the messages of an output; the text that an object contains for one may have line ends."""
    return re.split(rb"\n(?=[^\n]*: (?:Error|Warning): )", text[:-1]) if text else []


def why_wrong(ended, target, files, found):
    """Returns what is wrong with a run, or None."""
    tool = target.words[0]
    if ended.status not in (0, 1):
        return f"status {ended.status}"
    if ended.err and not ended.err.endswith(b"\n"):
        return f"said {ended.err[-200:]}"
    if ended.status and not ended.err:
        return "refused without a message"
    *warnings, last = messages_of(ended.err) if ended.status else [*messages_of(ended.err), None]
    if any(not WARNINGS[tool].fullmatch(it) for it in warnings) or (warnings and ended.status and tool != "ca65"):
        return f"said {ended.err[-300:]}"
    if ended.status == 0:
        return None
    if not is_message(tool, last, files):
        return f"said {last[-300:]}"
    if ended.out and tool != "ca65":
        return f"refused, and printed {ended.out[-200:]}"
    if found != files and not last.endswith(b": Error: file error"):
        return f"refused, and wrote {sorted(name for name in found if found[name] != files.get(name))}"
    return None


class Trial:
    def __init__(self, program, seed):
        self.starter, self.seed = launcher.Starter(program), seed
        launcher.bound_memory(MEMORY)
        self.targets = corpus(self.starter, random.Random(seed))
        self.counts = collections.Counter()
        self.slowest = (0.0, "")
        self.failed = 0

    def run(self, number):
        rng = random.Random(f"{self.seed}/{number}")
        kind = rng.choice(KINDS)
        target = rng.choice(self.targets[kind])
        other = rng.choice(self.targets[kind])
        file = changed(rng, kind, target.files[target.name], other.files[other.name])
        files = {**target.files, target.name: file}
        self.starter.restore(files)
        ended = self.starter.start(target.words)
        why = why_wrong(ended, target, files, self.starter.files())
        self.counts[kind, ended.status] += 1
        self.slowest = max(self.slowest, (self.starter.took, f"{number} ({kind})"))
        if why:
            self.failed += 1
            print(f"trial {number} of seed {self.seed}: FAILED: {why}\n  bin65 {' '.join(target.words)}\n  with {target.name} = {file!r}", flush=True)

    def tell(self):
        for kind in KINDS:
            said = (f"{self.counts[kind, status]} {what}" for status, what in ((0, "accepted"), (1, "refused")))
            print(f"{kind}: {', '.join(said)}, of {len(self.targets[kind])} targets")
        print(f"the slowest took {self.slowest[0]:.2f} s of a processor: trial {self.slowest[1]}")


def main():
    words = argparse.ArgumentParser()
    words.add_argument("program")
    words.add_argument("--seed", type=int, default=1)
    words.add_argument("--first", type=int, default=0)
    words.add_argument("--count", type=int, default=20000)
    words.add_argument("--seconds", type=float)
    words = words.parse_args()
    began = time.monotonic()
    trial = Trial(words.program, words.seed)
    number = words.first
    try:
        while time.monotonic() - began < words.seconds if words.seconds else number < words.first + words.count:
            trial.run(number)
            number += 1
    finally:
        trial.starter.close()
    trial.tell()
    print(f"{time.monotonic() - began:.0f} s")
    print(f"{number - words.first - trial.failed} passed, {trial.failed} failed")
    sys.exit(trial.failed != 0)


if __name__ == "__main__":
    main()
