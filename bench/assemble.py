"""Measures assembling and linking: lines of `nop`, of data with expressions and of instructions in procs, plain data, and lines that use
constants whose expressions contain an import, or a name of the global scope."""
import os
import random
import shutil
import subprocess
import time

SCRIPT = (
    "MEMORY { ROM: start = 0, size = $1000000; } SEGMENTS { CODE: load = ROM, type = ro; }\n"
    "SYMBOLS { base: type = export, value = $2000; }\n"
)
numbers = random.Random(9)


def expressions(count):
    """Lines of data with expressions over labels before and after them, and over constants."""
    blocks = count // 10
    lines = []
    for k in range(blocks):
        before, behind = max(0, k - numbers.randrange(1, 50)), min(blocks - 1, k + numbers.randrange(1, 50))
        lines += [
            f"l{k}:",
            f"c{k} = c{before} & 15 + {numbers.randrange(9)}" if k else "c0 = 1",
            f"    .byte <(l{behind} - l{before}), >(l{behind} - l{before})",
            f"    .word l{behind} - l{before} + $1000",
            f"    .byte c{behind} & 7, c{before} | 1, {numbers.randrange(128, 256)} - {numbers.randrange(128)}",
            f"    .word (* - l{before}) & $FFFF, c{k} * 3 + 1",
            f"    .dbyt ${numbers.randrange(65536):04X}",
            f"    .byte {numbers.randrange(20)} + {numbers.randrange(10)} * {numbers.randrange(10)}, 'x', \"text\"",
            f"    .dword (l{behind} - l{k}) << 8",
            f"    .byte (l{behind} - l{before}) & $3F",
        ]
    return lines


def programs(count):
    """Lines of instructions in procs: branches, cheap and unnamed labels, the zero page, constants, data."""
    blocks = count // 20
    lines = ["p = $10", "q = p + 2"]
    for k in range(blocks):
        before, behind = max(0, k - numbers.randrange(1, 50)), min(blocks - 1, k + numbers.randrange(1, 50))
        lines += [
            f".proc r{k}",
            f"    size = {numbers.randrange(1, 200)}",
            f"    lda #<(r{behind} - r{before})",
            "    sta p",
            f"    ldy #>(r{behind} - r{before})",
            "    sty p + 1",
            "    ldx #size",
            "@next:",
            "    lda (p),y",
            f"    cmp #{numbers.randrange(256)} & $7F",
            "    beq :+",
            "    sta $0200,x",
            "    inc q",
            ":   dex",
            "    bne @next",
            "    lda a:q",
            f"    and #{numbers.randrange(20)}+{numbers.randrange(10)}*{numbers.randrange(10)}",
            "    rts",
            f"    .byte (* - @next) & $3F, size, ${numbers.randrange(256):02X}",
            ".endproc",
        ]
    return lines


def over_import(count):
    """Lines with a label that use one of 100 constants, each of which is one more than the last, over an import."""
    return [
        ".import base",
        "c0 = base + 1",
        *(f"c{k} = c{k - 1} + 1" for k in range(1, 100)),
        *(f"l{k}: lda c{k % 100}" for k in range(count)),
    ]


def nested(count):
    """Returns nested scopes, each with a use of a global name."""
    return ["g = $1234", *(line for k in range(count) for line in (f".scope s{k}", "    lda g")), *[".endscope"] * count]


# The cases by name: description, number of lines or bytes, the function that makes them, and seconds with cc65 on README's machine.
CASES = {
    "1": ("lines of nop", 100_000, lambda count: ["    nop"] * count, 6),
    "2": ("lines of nop", 200_000, lambda count: ["    nop"] * count, 8),
    "4": ("lines of nop", 400_000, lambda count: ["    nop"] * count, 16),
    "e1": ("lines of expressions", 100_000, expressions, 9),
    "e2": ("lines of expressions", 200_000, expressions, 10),
    "e4": ("lines of expressions", 400_000, expressions, 20),
    "m1": ("lines of instructions", 100_000, programs, 8),
    "m2": ("lines of instructions", 200_000, programs, 10),
    "m4": ("lines of instructions", 400_000, programs, 20),
    "data": ("bytes in .byte lists", 1 << 20,
             lambda count: ["    .byte " + ",".join("$%02X" % numbers.randrange(256) for _ in range(16)) for _ in range(count // 16)], 7),
    "k": ("lines by constants over an import", 20_000, over_import, 3),
    "s": ("scopes in each other", 1_000, nested, 2),
}
# Those of which instructions are counted.
COUNTED = ("1", "e1", "m1", "data")


def steps(program, name):
    """The words of assembling and linking a case, by bin65 (a program) or by cc65's own tools (none)."""
    tools = [[program, "ca65"], [program, "ld65"]] if program else [["ca65"], ["ld65"]]
    mark = "own" if program else "cc65"
    return [
        tools[0] + ["-o", f"{name}.{mark}.o", f"{name}.s"],
        tools[1] + ["-C", "s.cfg", "-o", f"{name}.{mark}.out", f"{name}.{mark}.o"],
    ]


def least(words, folder, times=3):
    spent = []
    for _ in range(times):
        start = time.monotonic()
        subprocess.run(words, cwd=folder, check=True)
        spent.append(time.monotonic() - start)
    return min(spent)


def instructions(words, folder):
    """How many instructions a run takes, or nothing where valgrind isn't there."""
    if not shutil.which("valgrind"):
        return None
    run = subprocess.run(
        ["valgrind", "--tool=callgrind", "--callgrind-out-file=/dev/null"] + words,
        cwd=folder, stdout=subprocess.DEVNULL, stderr=subprocess.PIPE, text=True, check=True,
    )
    counts = [line.split()[-1] for line in run.stderr.splitlines() if "Collected" in line]
    return int(counts[0]) if counts else None


def timed(program, folder, name, what, lines, units):
    """Assembles and links a source by both, and compares the images."""
    for file, text in (("s.cfg", SCRIPT), (f"{name}.s", "\n".join(lines) + "\n")):
        with open(f"{folder}/{file}", "w", encoding="utf-8") as it:
            it.write(text)
    real, total = shutil.which("ld65") and shutil.which("ca65"), 0
    for words, theirs in zip(steps(program, name), steps(None, name)):
        ours = least(words, folder)
        ratio = ""
        if real:
            other = least(theirs, folder)
            ratio = f"   cc65 {other:8.4f} s   bin65 / cc65 {ours / other:5.2f}"
        print(f"{what:29} {words[1]:6} bin65 {ours:8.4f} s{ratio}", flush=True)
        total += (instructions(words, folder) or 0) if name in COUNTED else 0
    if total:
        print(f"{'':29} {total / units:.0f} instructions for each line or byte of data, ca65 and ld65 together")
    if real:
        with open(os.path.join(folder, name + ".own.out"), "rb") as a, open(os.path.join(folder, name + ".cc65.out"), "rb") as b:
            print(f"{'':29} images {'the same' if a.read() == b.read() else 'DIFFER'}")


def parts(program, folder, divisor):
    """Yields the measurements as (description, seconds with cc65 on README's machine, function)."""
    for name, (what, units, lines, seconds) in CASES.items():
        units = max(100, units // divisor)
        whole = f"{units:,} {what}"
        yield whole, seconds, lambda name=name, whole=whole, units=units, lines=lines: timed(program, folder, name, whole, lines(units), units)
