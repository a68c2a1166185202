#!/usr/bin/env python3
"""Times bin65 beside cc65's own tools (Debian's package cc65) on one machine, and says as it goes what it does and how long the rest
will take. Linking: an object of 4,096 full literal records, and 1,000 runs of the smallest object. Assembling and linking: 100,000,
200,000 and 400,000 lines `nop`, as many of data with expressions and of instructions in procs, 1 MB of plain data, 20,000 lines that use
constants whose expressions contain an import, and 1,000 nested scopes; with valgrind also the number of instructions per line or byte. The
two are run in turn, and the minimum of each is shown.

usage: run.py BIN65 [FOLDER [DIVISOR]]    FOLDER is bench-out; a DIVISOR makes all sizes so much smaller."""
import os
import shutil
import sys
import time

import assemble
import link


def in_minutes(seconds):
    minutes = max(1, round(seconds / 60))
    return "a minute" if minutes == 1 else f"some {minutes} minutes"


def say(text):
    print(f"{time.strftime('%H:%M:%S')} {text}", flush=True)


def main(program, folder="bench-out", divisor="1"):
    os.makedirs(folder, exist_ok=True)
    program, folder, divisor = os.path.abspath(program), os.path.abspath(folder), int(divisor)
    parts = [*link.parts(program, folder, divisor), *assemble.parts(program, folder, divisor)]
    whole, done, begun = sum(seconds for _, seconds, _ in parts), 0, time.monotonic()
    beside = "with cc65's tools" if shutil.which("ca65") and shutil.which("ld65") else "without cc65's tools, which aren't installed"
    say(f"{len(parts)} parts, {beside}: {in_minutes(whole / divisor)} on an idle machine.")
    for number, (what, seconds, run) in enumerate(parts, 1):
        left = (whole - done) * (time.monotonic() - begun) / done if done else whole / divisor
        say(f"part {number} of {len(parts)}: {what}; {in_minutes(left)} left")
        run()
        sys.stdout.flush()
        done += seconds
    say(f"That took {in_minutes(time.monotonic() - begun)}.")


if __name__ == "__main__":
    main(*sys.argv[1:])
