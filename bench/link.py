"""Times of linking: an object of 4,096 full literal records, and many runs of the smallest object."""
import os
import shutil
import subprocess
import time

SCRIPT = "MEMORY { ROM: start = 0, size = $%X; } SEGMENTS { CODE: load = ROM; }\n"
CC65_SCRIPT = "MEMORY { ROM: start = 0, size = $%X, file = %%O; } SEGMENTS { CODE: load = ROM, type = ro; }\n"
PIECE = bytes(range(256)) * 16


def number(value, size):
    return value.to_bytes(size, "little")


def record(kind, body):
    return bytes([kind]) + number(len(body), 2) + body


def an_object(pieces):
    size = sum(len(piece) for piece in pieces)
    return b"R65o\x01" + record(2, number(size, 4) + b"\x00CODE") + b"".join(record(3, p) for p in pieces) + record(8, b"")


def spent(words, folder, runs):
    start = time.monotonic()
    for _ in range(runs):
        subprocess.run(words, cwd=folder, check=True)
    return time.monotonic() - start


def least(words, folder, runs, times):
    return min(spent(words, folder, runs) for _ in range(times))


def show(what, ours, theirs):
    ratio = "" if theirs is None else f"   cc65 {theirs:8.4f} s   bin65 / cc65 {ours / theirs:5.2f}"
    print(f"{what:40} bin65 {ours:8.4f} s{ratio}")


def timed(program, folder, name, what, made, size, source, runs, times):
    """Links an object, and one that cc65 makes of a source with the same bytes."""
    real = shutil.which("ld65") and shutil.which("ca65")
    for file, content in ((".o", made), (".cfg", (SCRIPT % size).encode()), (".s", source), (".cc65.cfg", (CC65_SCRIPT % size).encode())):
        with open(f"{folder}/{name}{file}", "wb") as it:
            it.write(content)
    ours, theirs = least([program, "ld65", "-C", f"{name}.cfg", "-o", f"{name}.out", f"{name}.o"], folder, runs, times), None
    if real:
        subprocess.run(["ca65", "-o", f"{name}.cc65.o", f"{name}.s"], cwd=folder, check=True)
        theirs = least(["ld65", "-C", f"{name}.cc65.cfg", "-o", f"{name}.cc65.out", f"{name}.cc65.o"], folder, runs, times)
    show(what, ours, theirs)
    if real:
        with open(os.path.join(folder, name + ".out"), "rb") as a, open(os.path.join(folder, name + ".cc65.out"), "rb") as b:
            print(f"{'':40} images {'the same' if a.read() == b.read() else 'DIFFER'}")


def parts(program, folder, divisor):
    """Yields the measurements as (description, seconds with cc65 on README's machine, function)."""
    records, runs = max(1, 4096 // divisor), max(1, 1000 // divisor)
    line = ".byte " + ",".join(str(b) for b in PIECE[:256]) + "\n"
    size = records * len(PIECE)
    what = f"{records} full literal records, one run"
    yield what, 45, lambda what=what: timed(program, folder, "large", what, an_object([PIECE] * records), size, (line * (size // 256)).encode(), 1, 5)
    what = f"three bytes, {runs} runs"
    yield what, 10, lambda what=what: timed(program, folder, "small", what, an_object([b"\xa9\x00\x60"]), 16, b"lda #0\nrts\n", runs, 3)
