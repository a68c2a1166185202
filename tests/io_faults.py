#!/usr/bin/env python3
"""Tests the real program with a disk and streams that fail: in turn, each call that opens, reads, writes or seeks fails; then all calls from
each one on; every call moves one byte; and writes write nothing. A run must name the file that failed, with its location while a source is
read, end with status 1, and leave its files as they were, or the outputs written before and a first part of one. After a stream stops,
nothing is printed and no file is written. Moving one byte at a time changes no result.

usage: io_faults.py BIN65    Prints a line for each run; the last line is 'N passed, M failed'.
"""

import os
import sys

import fault_injection

# How many bytes a file has at most.
LIMIT = 16_777_216


class Call:
    """A call as fault_injection.c reports it: its kind, its file and its result. `place` is the offset in the file at which it reads, or for which the
    file is opened or sought."""

    def __init__(self, line):
        self.asked, rest = line.split(" ", 1)
        self.name, answer = rest.rsplit(" ", 1)
        self.answer = int(answer)
        self.place = 0


def calls_of(report):
    calls = [Call(line) for line in report.splitlines()]
    place = {}
    for call in calls:
        if call.asked == "open":
            place[call.name] = 0
        elif call.asked == "seek":
            place[call.name] = call.answer
        call.place = place.get(call.name, 0)
        if call.asked == "read" and call.answer > 0:
            place[call.name] = call.place + call.answer
    for call, behind in zip(calls, calls[1:]):
        if call.asked == "open" and behind.asked == "seek" and behind.name == call.name:
            call.place = behind.place
    return calls


def asking(before, name):
    """Returns the location of the line that asks for a file."""
    wanted = f'"{os.path.basename(name)}"'.encode()
    for file, text in before.items():
        for number, line in enumerate(text.split(b"\n"), 1):
            if wanted in line and line.startswith((b".include", b".incbin")):
                return f"{file}:{number}"
    return None


def source_place(words, before, call):
    """Returns the location of a call on a file of a source: the line that is being read, or the line before if the offset is before a line's first
    byte. Before the first line, and when a file is looked for past the limit of files, it is the line that asks for the file, or the source
    without a line."""
    is_text = call.name.endswith((".s", ".inc")) and call.place < LIMIT
    front = before.get(call.name, b"")[: call.place] if is_text else b""
    line = front.count(b"\n") + (front != b"" and not front.endswith(b"\n"))
    outside = call.name if call.name == words[-1] else asking(before, call.name)
    return f"{call.name}:{line}" if line else outside


def input_places(before, call):
    """Returns the names for a file that ld65 or ar65 reads; for a library also the name of the member at the offset."""
    file = before.get(call.name, b"")
    if not file.startswith(b"R65l"):
        return {call.name}
    return {call.name, *(f"{call.name}({name})" for name, begin, end in members(file) if begin <= call.place <= end)}


def members(library):
    """Returns the name, the begin and the end of each member."""
    at = 5

    def number():
        nonlocal at
        at += 4
        return int.from_bytes(library[at - 4 : at], "little")

    def name():
        nonlocal at
        at += 1 + library[at]
        return library[:at]

    found = []
    for _ in range(number()):
        begin = at + 1
        found.append((name()[begin:].decode(), number()))
        for _ in range(2):
            for _ in range(number()):
                name()
    ends = []
    for member, size in found:
        ends.append((member, at, at + size))
        at += size
    return ends


def messages_of(words, before, calls, failed):
    """Returns the messages that a run may print after a failed call."""
    is_written = any(it.asked == "create" for it in calls) or failed.asked == "create"
    if is_written:
        places = {failed.name}
    elif words[0] == "ca65":
        places = {source_place(words, before, failed)}
    else:
        places = input_places(before, failed)
    return [f"{place}: Error: file error\n".encode() for place in places]


def why_stream_wrong(ended, before, plain, failed):
    """Returns what is wrong with a run whose stream stopped, or None."""
    if failed.name == "out" and ended.err:
        return f"standard output failed, said {ended.err}"
    if failed.name == "err" and ended.out != plain.out:
        return f"standard error failed, printed {ended.out}"
    if not plain.out.startswith(ended.out) or not plain.err.startswith(ended.err):
        return f"printed {ended.out}, said {ended.err}"
    return None if ended.files == before else "a stream failed, and files were written"


def why_file_wrong(ended, words, before, plain, calls):
    """Returns what is wrong with a run whose last call on a file failed, or None."""
    *calls, failed = calls
    lines = messages_of(words, before, calls, failed)
    said = next((ended.err[: -len(it)] for it in lines if ended.err.endswith(it)), None)
    if said is None or not plain.err.startswith(said) or not plain.out.startswith(ended.out):
        return f"{failed.asked} {failed.name} failed, printed {ended.out}, said {ended.err}, not one of {lines}"
    order = [it.name for it in [*calls, failed] if it.asked == "create"]
    if not order:
        return None if ended.files == before else f"reading {failed.name} failed, and files were written"
    is_all_said = ended.out == plain.out and said == plain.err
    if is_all_said and failed.name == order[-1] and fault_injection.is_written(ended.files, before, plain.files, order) is not None:
        return None
    return f"{failed.asked} {failed.name} failed, printed {ended.out}, said {ended.err}, the files are {ended.files}"


def why_dead_wrong(ended, words, before, plain, calls):
    """Returns what is wrong with a run in which the last of these calls and all later ones failed, or None: it can print nothing more."""
    order = [it.name for it in calls if it.asked == "create"]
    is_said = plain.out.startswith(ended.out) and plain.err.startswith(ended.err)
    if ended.status != 1 or not is_said or fault_injection.is_written(ended.files, before, plain.files, order) is None:
        return f"{calls[-1].asked} {calls[-1].name} failed, {ended.answer()}"
    return None


def why_wrong(ended, words, before, plain, calls):
    """Returns what is wrong with a run in which the last of these calls failed, or None."""
    failed = calls[-1]
    if ended.status != 1:
        return f"{failed.asked} {failed.name} failed, status {ended.status}"
    if failed.name in ("out", "err"):
        return why_stream_wrong(ended, before, plain, failed)
    return why_file_wrong(ended, words, before, plain, calls)


def fail_in_turn(tests, words, before, plain, letters, wanted):
    """Lets each selected call fail in turn. Returns how many there are, and the first that went wrong."""
    run, restore = tests.starter.run, tests.starter.restore
    restore(before)
    ended = run(words, f"d{letters}")
    if ended.answer() != plain.answer():
        return 0, f"{ended.answer()}, not {plain.answer()}"
    calls = calls_of(ended.report)
    numbers = [number for number, call in enumerate(calls, 1) if wanted(call)]
    wrong = []
    for number in numbers:
        restore(before)
        ended = run(words, f"d{number}{letters}")
        why = (why_dead_wrong if "a" in letters else why_wrong)(ended, words, before, plain, calls[:number])
        wrong += [f"call {number}: {why}"] * bool(why)
    if len(calls) < 2:
        wrong.append(f"{len(calls)} calls are seen")
    return len(numbers), f"{len(wrong)} times, first {wrong[0]}" if wrong else None


def is_call(_call):
    return True


def is_write(call):
    return call.asked == "write"


WAYS = (
    ("a call fails", "", is_call),
    ("all calls from one on fail", "a", is_call),
    ("a call fails, byte by byte", "b", is_call),
    ("a write takes nothing", "bz", is_write),
)


def trial(tests, name, words, before, plain):
    counts = []
    for way, letters, wanted in WAYS:
        count, why = fail_in_turn(tests, words, before, plain, letters, wanted)
        tests.check(f"{name}: {way}", why)
        counts.append(count)
    print(f"{name}: {counts[0]} calls, {counts[2]} byte by byte, {counts[3]} writes", flush=True)


if __name__ == "__main__":
    fault_injection.Tests(sys.argv[1], trial).run()
