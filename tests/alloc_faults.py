#!/usr/bin/env python3
"""Refuses each request for memory of each run of the real program in turn, and then all requests from each one on. A run that is refused memory
must end with status 1, print a first part of what it prints with enough memory and then that memory ran out, and write nothing; or, if it
was writing its files, the earlier ones and a first part of one. If it ends with status 0, the refusal was lost.

usage: alloc_faults.py BIN65    Prints a line for each run; the last line is 'N passed, M failed'.
"""

import sys

import fault_injection


def names_of(words):
    """Returns the names that may report that memory ran out."""
    return ["bin65", {"ca65": words[-1], "ld65": "ld65", "ar65": words[min(2, len(words) - 1)]}[words[0]]]


def why_wrong(ended, words, before, plain, order):
    """Returns what is wrong with a run that was refused memory, or None."""
    if ended.status != 1:
        return f"status {ended.status}, said {ended.err}"
    if not plain.out.startswith(ended.out):
        return f"printed {ended.out}"
    lines = [f"{name}: Error: out of memory\n".encode() for name in names_of(words)]
    said = [ended.err[: -len(line)] for line in lines if ended.err.endswith(line)]
    if not any(plain.err.startswith(it) for it in said):
        return f"said {ended.err}"
    if ended.files == before:
        return None
    is_said = ended.out == plain.out and plain.err in said
    if not is_said or fault_injection.is_written(ended.files, before, plain.files, order) is None:
        return f"wrote {sorted(name for name, file in ended.files.items() if before.get(name) != file)}"
    return None


def trial(tests, name, words, before, plain):
    run, restore = tests.starter.run, tests.starter.restore
    restore(before)
    order = fault_injection.created(run(words, "d").report)
    for letter in ("", "a"):
        number, why = 0, None
        while True:
            number += 1
            restore(before)
            ended = run(words, f"m{number}{letter}")
            if ended.status is not None and not ended.report.endswith("refused\n"):
                break
            wrong = why_wrong(ended, words, before, plain, order)
            if wrong and not why:
                why = f"request {number}: {wrong}"
        if not why and (ended.answer() != plain.answer() or number < 10):
            why = f"no refusal at request {number}, {ended.answer()[:3]}"
        tests.check(f"{name}: {'all requests from one on' if letter else 'a request'} refused", why)
    print(f"{name}: {number - 1} requests", flush=True)


if __name__ == "__main__":
    fault_injection.Tests(sys.argv[1], trial).run()
