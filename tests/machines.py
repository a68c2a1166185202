#!/usr/bin/env python3
"""Loads the images of example/hello as each machine does, runs them on a small processor, and checks the characters that they pass to the
machine's own routine: C64 and VIC-20 (load address, the line of BASIC with its SYS, CHROUT), Apple II (an AppleSingle file, COUT), Atari
(blocks, RUNAD, CIO). The NES has no such routine, so its header and vectors are checked.

usage: machines.py BIN65. The last line is 'N passed, M failed'."""
import os
import shutil
import subprocess
import sys
import tempfile

import pages

# The instructions that the images use, as (name, how its operand is found).
CODES = {
    0x09: ("ora", "#"), 0x20: ("jsr", "abs"), 0x4C: ("jmp", "abs"), 0x60: ("rts", ""), 0x84: ("sty", "zp"), 0x85: ("sta", "zp"), 0x86: ("stx", "zp"),
    0x8E: ("stx", "abs"), 0xA0: ("ldy", "#"), 0xA2: ("ldx", "#"), 0xA4: ("ldy", "zp"), 0xA9: ("lda", "#"), 0xB1: ("lda", "(zp),y"),
    0xC8: ("iny", ""), 0xD0: ("bne", "rel"), 0xF0: ("beq", "rel"),
}
LENGTHS = {"": 1, "#": 2, "zp": 2, "(zp),y": 2, "rel": 2, "abs": 3}


def word(memory, at):
    return memory[at] + 256 * memory[at + 1]


def run(memory, start, routines):
    """Runs from an address until a jump to itself, and returns the value of A at each call of one of the machine's routines."""
    a = x = y = zero = 0
    stack, calls, at = [], [], start
    for _ in range(10000):
        name, form = CODES[memory[at]]
        operand = at + 1
        if form == "zp":
            operand = memory[operand]
        elif form == "abs":
            operand = word(memory, operand)
        elif form == "(zp),y":
            operand = word(memory, memory[operand]) + y
        following = at + LENGTHS[form]
        if name == "jmp" and operand == at:
            return calls
        if name in ("jmp", "jsr"):
            if name == "jsr":
                stack.append(following)
            at = operand
            if at in routines:
                calls.append((at, a, [memory[it] for it in routines[at]]))
                at = stack.pop()
            continue
        if name == "rts":
            at = stack.pop()
            continue
        if name in ("bne", "beq"):
            step = memory[operand] - (memory[operand] & 0x80) * 2
            at = following + (step if zero == (name == "beq") else 0)
            continue
        if name in ("sta", "stx", "sty"):
            memory[operand] = {"sta": a, "stx": x, "sty": y}[name]
        elif name == "lda":
            a = memory[operand]
        elif name == "ldx":
            x = memory[operand]
        elif name == "ldy":
            y = memory[operand]
        elif name == "ora":
            a |= memory[operand]
        elif name == "iny":
            y = (y + 1) & 0xFF
        if name[0] not in "s":
            zero = {"a": a, "x": x, "y": y}[{"ora": "a", "iny": "y"}.get(name, name[2])] == 0
        at = following
    raise ValueError("it comes to no end")


def commodore(image):
    """Returns what a C64 or a VIC-20 prints: the file begins with its load address, and BASIC's first line has the SYS."""
    memory, begun = bytearray(65536), image[0] + 256 * image[1]
    memory[begun : begun + len(image) - 2] = image[2:]
    line = memory[begun + 4 : memory.index(0, begun + 4)]
    following = word(memory, begun)
    if line[0] != 0x9E or memory[following - 1] or word(memory, following):
        raise ValueError("no line with a SYS, or more than one")
    return begun, bytes(a for _, a, _ in run(memory, int(line[1:]), {0xFFD2: ()}))


def apple(image):
    """Returns what an Apple II prints, from an AppleSingle file."""
    if image[:8] != bytes.fromhex("0005160000020000") or any(image[8:24]) or image[24:26] != b"\0\2":
        raise ValueError("no AppleSingle file of two entries")
    found = {}
    for at in (26, 38):
        kind, begun, length = (int.from_bytes(image[it : it + 4], "big") for it in (at, at + 4, at + 8))
        found[kind] = image[begun : begun + length]
    access, kind, begun = found[11][1], found[11][3], int.from_bytes(found[11][4:8], "big")
    if (access, kind) != (0xC3, 6) or len(found[1]) + 58 != len(image):
        raise ValueError("other facts for ProDOS, or another length")
    memory = bytearray(65536)
    memory[begun : begun + len(found[1])] = found[1]
    calls = run(memory, begun, {0xFDED: (), 0xFC58: ()})
    return begun, bytes(a & 0x7F if routine == 0xFDED else 0x0C for routine, a, _ in calls)


def atari(image):
    """Returns what an Atari prints: its blocks are loaded, the last one puts the start address at RUNAD."""
    memory, at, first = bytearray(65536), 2, None
    if image[:2] != b"\xff\xff":
        raise ValueError("no mark")
    while at < len(image):
        begun, last = word(image, at), word(image, at + 2)
        first = begun if first is None else first
        memory[begun : last + 1] = image[at + 4 : at + 5 + last - begun]
        at += 5 + last - begun
    if at != len(image):
        raise ValueError("the last block is cut short")
    calls = run(memory, word(memory, 0x02E0), {0xE456: (0x0342, 0x0348, 0x0349)})
    if any(more != [11, 0, 0] for _, _, more in calls):
        raise ValueError("CIO is asked for something else than to put A")
    return first, bytes(a for _, a, _ in calls)


def nes(image):
    """Returns the sizes and the vectors of a cartridge."""
    if image[:4] != b"NES\x1a" or len(image) != 16 + image[4] * 16384 + image[5] * 8192 or image[6] & 0xF0 or image[7]:
        raise ValueError("another header, or another size")
    vectors = [word(image, 16 + 0x7FFA + it) for it in (0, 2, 4)]
    return 0x8000, bytes(0x78 if it == 1 else 0x40 for it, at in enumerate(vectors) if image[16 + at - 0x8000] == (0x78 if it == 1 else 0x40))


# How each machine's image is read, where it has to begin, and what it has to print: its code that clears the screen, and the text.
MACHINES = {
    "c64": ("hello.prg", commodore, 0x0801, b"\x93HELLO"),
    "vic20": ("hello.prg", commodore, 0x1001, b"\x93HELLO"),
    "apple2": ("hello.as", apple, 0x0803, b"\x0cHELLO"),
    "atari": ("hello.xex", atari, 0x2000, b"\x7dHELLO"),
    "nes": ("hello.nes", nes, 0x8000, b"\x40\x78\x40"),
}


def main():
    program, passed, failed = os.path.abspath(sys.argv[1]), 0, 0
    with tempfile.TemporaryDirectory() as folder:
        shutil.copy(f"{pages.ROOT}/example/Makefile", folder)
        shutil.copytree(f"{pages.ROOT}/example/hello", f"{folder}/hello")
        made = subprocess.run(["make", f"BIN65={program}"], cwd=folder, stdout=subprocess.DEVNULL, stderr=subprocess.PIPE, text=True, check=False)
        for machine, (name, read, begun, wanted) in MACHINES.items():
            try:
                with open(f"{folder}/out/hello/{machine}/{name}", "rb") as it:
                    found = read(it.read())
            except (OSError, ValueError, KeyError, IndexError) as why:
                found = f"{why!r} {made.stderr}"
            passed, failed = passed + (found == (begun, wanted)), failed + (found != (begun, wanted))
            if found != (begun, wanted):
                print(f"{machine}: {found}")
    print(f"{passed} passed, {failed} failed")
    sys.exit(failed > 0)


main()
