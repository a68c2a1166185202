#!/usr/bin/env python3
"""Tries `work65 second -- COMMAND`, `work65 second ld65` and `work65 link`: links by cc65's linker and by bin65 of the same objects. Every
config of cc65's with a C program and an assembly program, random configs and objects, each translation by itself, links that can't be
translated, builds by make, sh and cl65, and a linker that makes another byte. What is expected comes from cc65's linker.

usage: second_builds.py BIN65 [RANDOM]. RANDOM is the number of random configs (default: 300). Without cc65 only command lines are tried.
The last line is 'N passed, M failed'."""
import json
import os
import random
import shutil
import subprocess
import sys
import tempfile
from collections import Counter

import pages
from results import report

sys.dont_write_bytecode = True
sys.path.insert(0, f"{pages.ROOT}/workbench")
from work65.linking import theirs  # noqa: E402
from work65.linking.call import read_call  # noqa: E402
from work65.linking.checking import Tools, checked  # noqa: E402
from work65.problem import Problem  # noqa: E402
from work65.program import Program  # noqa: E402

WORK65 = f"{pages.ROOT}/workbench/work65.sh"
CC65 = "/usr/share/cc65"
LINKER = shutil.which("ld65") or ""
C_PROGRAM = 'int x[10]; int y = 5; const char s[] = "hi"; int main(void) { x[1] = y * 3; return x[1] / 2; }\n'
PROGRAM = """ .export _main, start, e
 .export __STARTUP__ : absolute = 1
 .bss
b: .res 3
 .data
 .byte 1, 2
 .zeropage
zz: .res 1
 .code
start:
_main: lda b
 sta zz
e: rts
"""
# How each source begins; the cases below give the rest.
SEGMENTS = ("CODE", "RODATA", "BSS", "DATA", "ZEROPAGE", "ONE", "TWO", "THREE")
PLAIN = 'MEMORY { Z: start = 0, size = $100, file = ""; M: start = $800, size = $1000; }\n' \
        "SEGMENTS { ZEROPAGE: load = Z, type = zp; CODE: load = M; RODATA: load = M; DATA: load = M; BSS: load = M, type = bss; }\n"
MAIN = " .import other\n .code\n lda other\n jmp other\n"
OTHER = " .export other, more\n .import more2\n .code\nother: nop\nmore: .addr more2\n"
MORE = " .export more2\nmore2 = $1234\n"
TWICE = " .export other\n .code\n rts\nother: rts\n"
TABLES = PLAIN + """FEATURES {
    CONDES: type = constructor, label = CTORS, count = CTOR_COUNT, segment = RODATA;
    CONDES: type = interruptor, label = IRQS, count = IRQ_COUNT, segment = DATA, order = decreasing, import = more2;
    CONDES: type = 5, label = FIVES, segment = RODATA;
}
"""
CONSTRUCTORS = """ .constructor one, 5
 .constructor two, 5
 .constructor aaa, 30
 .interruptor two, 1
 .condes one, 5, 2
 .import CTORS, CTOR_COUNT, IRQS, IRQ_COUNT, FIVES
 .code
one: .addr CTORS, IRQS, FIVES
two: .byte <CTOR_COUNT, <IRQ_COUNT
aaa: rts
"""
BANKS = 'MEMORY { A: start = $8000, size = $100, bank = 3; B: start = $8000, size = $100, bank = $10 + 2; C: start = $9000, size = $10; }\n' \
        "SEGMENTS { CODE: load = A; RODATA: load = B; DATA: load = B, run = A, define = yes; BSS: load = C, type = bss; }\n"
BANKED = " .export there\n .import other\n .code\nhere: .byte <.bank(here), <.bank(there), <.bank(other) + 1\n" \
         " .rodata\nthere: .byte <.bank(here + 1)\n .data\n .byte 1\n"
WEAK = """SYMBOLS { TOP: type = weak, value = $900; SIZE: type = weak, value = $20 * 2; __OUT__: type = export, value = __M_LAST__ + 1;
    HALF: type = weak, value = TOP / 2; LAST: type = weak, value = __M_LAST__; }
MEMORY { M: start = TOP - 2, size = SIZE * (3 - 1) + 1, define = yes; N: start = %S, size = $30, define = yes; }
SEGMENTS { CODE: load = M; BSS: load = N, type = bss, define = yes; RODATA: load = N; DATA: load = N, align = 16; }
"""
USES = " .import TOP, SIZE, __OUT__, HALF, LAST, __BSS_RUN__, __N_FILEOFFS__, __N_START__\n .code\n .word TOP, SIZE, __OUT__, HALF, LAST\n" \
       " .word __BSS_RUN__, __N_FILEOFFS__, __N_START__\n .bss\n .res 5\n .rodata\n .byte 7\n"
WIDE = ' .setcpu "65816"\n .import other\n .code\nhere: brl other\n .faraddr other, here\n .dword other * 3, other - here\n .byte .max(<other, 3)\n' \
       " .word .loword(.min(other, here)), other >> 3, .not other\n .dbyt other\n .byte ^here, >other\n .word .hiword(other)\n per other\n" \
       ' .assert other > 2, lderror, "no"\n .assert here, error, "zero"\n'
# %S is the default until the config sets another one.
STARTS = "SYMBOLS { EARLY: type = export, value = %S; }\n" + PLAIN.replace("$800", "%S") + \
         "FEATURES { STARTADDRESS: default = $9000; }\nSYMBOLS { LATE: type = export, value = %S; }\n"
STARTED = " .import EARLY, LATE\n .code\nhere: .word EARLY, LATE, here\n"
# Each translation: the config, the sources (those of a library after "lib", of a second one after "lib2"), and further arguments.
CASES = {
    "plain": (PLAIN, (MAIN, OTHER, MORE), ()),
    "a library": (PLAIN, (MAIN, "lib", OTHER, MORE, TWICE), ()),
    "two libraries": (PLAIN, (MAIN, "lib", OTHER, "lib2", MORE), ()),
    "a group": (PLAIN, (MAIN, "(", "lib", MORE, "lib2", OTHER, ")"), ()),
    "a name in two libraries of a group": (PLAIN, (
        " .import one\n .code\n .addr one\n", "(", "lib", " .export five\n .code\nfive: .byte 5\n",
        " .export one\n .import two\n .code\none: .addr two\n", "lib2", " .export two\n .import five\n .code\ntwo: .addr five\n",
        " .export five\n .code\nfive: .byte 55\n", ")"), ()),
    "an import of a table in a library before": (TABLES, (
        " .import irq, IRQS\n .code\n .addr irq, IRQS\n", "lib", " .export more2\n .code\nmore2: .byte 2\n",
        "lib2", " .interruptor irq\n .code\nirq: .byte 9\n", "lib"), ()),
    "a library twice": (PLAIN, (MAIN, "lib", MORE, "lib2", OTHER, "lib"), ()),
    "a name that -D gives": (PLAIN, (MAIN,), ("-D", "other=$123")),
    "an import that is forced": (PLAIN, (MORE, "lib", OTHER), ("-u", "other")),
    "a name twice": (PLAIN, (MAIN, OTHER, TWICE, MORE), ("--allow-multiple-definition",)),
    "a name twice in a library": (PLAIN, (MAIN, TWICE, " .import more\n .code\n .addr more\n", "lib", OTHER, MORE),
                                  ("--allow-multiple-definition",)),
    "tables": (TABLES, (CONSTRUCTORS, MORE), ()),
    "tables with a library": (TABLES, (CONSTRUCTORS, "lib", MORE), ()),
    "tables nobody imports": (TABLES, (CONSTRUCTORS.replace(" .import", " .define gone").replace(".addr CTORS, IRQS, FIVES", "nop")
                                       .replace(".byte <CTOR_COUNT, <IRQ_COUNT", "nop"), MORE), ()),
    "banks": (BANKS, (BANKED, OTHER, MORE), ()),
    "banks in a library": (BANKS, (" .import there\n .code\n .addr there\n", "lib", BANKED, OTHER, MORE), ()),
    "weak": (WEAK, (USES,), ()),
    "weak with values of modules": (WEAK, (USES, " .export TOP, SIZE\nTOP = $a00\n SIZE = 30\n"), ("-S", "$1000")),
    "weak with values of a library": (WEAK, (USES, "lib", " .export TOP\nTOP = $a00\n", " .export SIZE\nSIZE = 30\n"), ("-S", "2048")),
    "weak with values of the command line": (WEAK, (USES,), ("-D", "TOP=0x700", "-D", "SIZE=010")),
    "every width": (PLAIN, (WIDE, OTHER, MORE), ()),
    "branches and bytes": (PLAIN, (" .import other\n .code\nhere: bne here\n .byte >other, <other, ^other\n .res 300, 5\n .res 20\n", OTHER, MORE), ()),
    "a fill between modules": (PLAIN.replace("RODATA: load = M", "RODATA: load = M, fillval = $77").replace("size = $1000", "size = $1000, fillval = $99, fill = yes"),
                               (" .rodata\n .byte 1\n", " .rodata\n .align 16\n .byte 2\n .res 3\n"), ()),
    "a file with the output's name in it": (PLAIN.replace("size = $1000", 'size = $1000, file = "%O.x%%"'), (OTHER, MORE), ()),
    "two files": (PLAIN.replace("M: ", 'K: start = 0, size = 5, fill = yes, file = "side.bin"; M: '), (OTHER, MORE), ()),
    "an exported name of a config that a library has": ("SYMBOLS { other: type = export, value = 5; }\n" + PLAIN, (MAIN, "lib", OTHER, MORE), ()),
    "symbols of a config that need labels": (
        "SYMBOLS { NEXT: type = export, value = other + 2; LATE: type = weak, value = more - other; }\n" + PLAIN,
        (" .import NEXT, LATE\n .code\n .word NEXT, LATE\n", OTHER, MORE), ()),
    "a start before its default": (STARTS, (STARTED,), ()),
    "a start that the command line gives": (STARTS, (STARTED,), ("-S", "0x1000")),
    "an import of a config": ("SYMBOLS { other: type = import; }\n" + PLAIN, (MORE, "lib", OTHER), ()),
}
# A load file in which ld65 2.19 writes the block of N over that of M, behind which a segment without bytes lies.
LOST = 'MEMORY { Z: start = 0, size = $100, file = ""; M: start = $800, size = $100; N: start = $900, size = 4, fill = yes; }\n' \
       "SEGMENTS { ZEROPAGE: load = Z, type = zp; CODE: load = M; BSS: load = M, type = bss; RODATA: load = M; DATA: load = M; }\n" \
       "FILES { %O: format = atari; }\n"
# What can't be linked by bin65: as above, and a part of the message.
REFUSED = {
    "o65": (PLAIN + 'FILES { %O: format = o65; }\n', (OTHER, MORE), (), "o65"),
    "overwrite": (PLAIN.replace("BSS: load = M, type = bss;", "BSS: load = M, type = bss; OVER: load = M, type = overwrite, start = $800;"),
                  (OTHER, MORE, ' .segment "OVER"\n .byte 9\n'), (), "overwrite"),
    "an alignment of 3": (PLAIN, (" .code\n .byte 1\n .align 3\n .byte 2\n",), (), "alignment 3"),
    "a product of places": (PLAIN.replace("M: start = $800,", "K: start = $700, size = 5, define = yes, file = \"\"; M: start = __K_LAST__ * __K_SIZE__,"),
                            (OTHER, MORE), (), "sum"),
}


class Tries:
    """A place for links, and what came of them."""

    def __init__(self, program, top):
        self.tools, self.top, self.checks = Tools(LINKER, Program(program)), top, {}
        self.environment = {**os.environ, "BIN65": program, "TMPDIR": f"{top}/temporary", "XDG_CACHE_HOME": f"{top}/cache"}

    def check(self, name, is_so, said=""):
        self.checks[name] = bool(is_so)
        if not is_so:
            print(f"{name}: FAILED {said}")

    def run(self, *words, folder=None, **more):
        """Runs work65."""
        how = {**self.environment, **more}
        return subprocess.run(["/bin/sh", WORK65, *words], cwd=folder or self.top, capture_output=True, text=True, env=how, check=False)

    def folder(self, name):
        """A new folder, entered."""
        place = f"{self.top}/{name}"
        os.makedirs(place)
        os.chdir(place)
        return place

    def arguments(self, config, sources, words):
        """Assembles the sources in the current folder, and returns the arguments of a link."""
        pages.put("l.cfg", config)
        inputs, library = [], ""
        for at, it in enumerate(sources):
            if it in ("(", ")"):
                inputs.append(f"-{it}")
            elif it.startswith("lib"):
                library = f"{it}.lib"
                inputs.append(library)
            else:
                pages.put(f"m{at}.s", it)
                subprocess.run(["ca65", "-g", f"m{at}.s"], check=True)
                if library:
                    subprocess.run(["ar65", "r", library, f"m{at}.o"], check=True)
                else:
                    inputs.append(f"m{at}.o")
        return ["-C", "l.cfg", "-o", "image", *words, *inputs]


def cases(tries):
    """Each translation, by cc65's linker and by bin65."""
    for at, (name, (config, sources, words)) in enumerate(CASES.items()):
        tries.folder(f"case{at}")
        found = checked(tries.arguments(config, sources, words), tries.tools, False)
        tries.check(name, found.verdict == "same", found)


def refusals(tries):
    """What bin65 can't link: the reason is said, and `work65 link` writes nothing."""
    for at, (name, (config, sources, words, said)) in enumerate(REFUSED.items()):
        folder = tries.folder(f"refused{at}")
        arguments = tries.arguments(config, sources, words)
        before = sorted(os.listdir())
        ran = tries.run("second", "ld65", *arguments, folder=folder)
        tries.check(f"refused: {name}", ran.returncode == 2 and said in ran.stdout and not ran.stderr, ran)
        ran = tries.run("link", *arguments, "-m", "map", folder=folder)
        tries.check(f"not linked: {name}", ran.returncode == 1 and said in ran.stderr and sorted(os.listdir()) == before, ran)


def configs(tries):
    """Every config of cc65's with a C program and with an assembly program, where cc65's linker takes them."""
    tries.folder("configs")
    pages.put("c.c", C_PROGRAM)
    pages.put("s.s", PROGRAM)
    targets = [it[:-4] for it in os.listdir(f"{CC65}/lib") if it.endswith(".lib")]
    linked = 0
    for config in sorted(os.listdir(f"{CC65}/cfg")):
        name = config[:-4]
        target = max((it for it in targets if name.startswith(it)), key=len, default="none")
        for kind in "cs":
            made = f"{target}-{kind}.o"
            if not os.path.exists(made):
                subprocess.run(["cl65", "-c", "-t", target, "-o", made, f"{kind}.{kind}"], check=True)
            found = checked(["-C", config, "-o", f"{name}-{kind}", made, f"{target}.lib"], tries.tools, False)
            is_refused = ": not compared: ld65 refuses" in found.text
            linked += not is_refused
            if not is_refused:
                is_o65 = found.verdict == "not compared" and found.text.endswith("has the format o65, which can't be made")
                tries.check(f"{config} with {made}", found.verdict == "same" or config == "module.cfg" and is_o65, found)
    tries.check("configs that link", linked >= 60, linked)


def module(some, number):
    """A random source: bytes, places and space in some segments."""
    lines = [f" .export e{number}"]
    for at, segment in enumerate(some.sample(SEGMENTS, some.randint(1, 6))):
        lines += [f' .segment "{segment}"'] + [f"e{number}:"] * (at == 0)
        for _ in range(some.randint(0, 3)):
            is_space = segment in ("BSS", "ZEROPAGE") and some.random() < 0.95
            lines.append(f" .res {some.randint(1, 9)}" if is_space else some.choice((
                f" .res {some.randint(1, 9)}", f" .byte {some.randint(0, 255)}, 7", f" .align {some.choice((2, 4, 8, 16))}",
                f" .addr e{number} + {some.randint(0, 5)}", f" .byte <e{number}, >e{number}", f" .word .loword(e{number} * 3)")))
        name = f"__{some.choice('AAAB')}_{some.choice(('START', 'SIZE', 'LAST', 'FILEOFFS'))}__"
        if some.random() < 0.06:
            lines += [f" .import {name}", f" .word {name}"]
    return "\n".join(dict.fromkeys(lines[:1])) + "\n" + "\n".join(lines[1:]) + "\n"


def area(some, name):
    """A random memory area."""
    before = chr(ord(name) - 1)
    start = f"__{before}_LAST__" if name != "A" and some.random() < 0.12 else f"${0x100 + 0x200 * 'ABCD'.index(name):X}"
    words = [f"start = {start}", f"size = {some.choice(('$40', '$80', '$100', '$100', '$30 * 2 - (1 + 3)'))}"]
    words += [f"file = {some.choice(('%O', '%O', chr(34) * 2, chr(34) + '%O.1' + chr(34)))}"] * (some.random() < 0.7)
    words += ["fill = yes"] * (some.random() < 0.35) + [f"fillval = {some.randint(1, 255)}"] * (some.random() < 0.3)
    return f"  {name}: {', '.join(words + ['define = yes'] * (some.random() < 0.92))};"


def row(some, name, areas):
    """A random row of SEGMENTS."""
    load = some.choice(areas)
    kind = {"BSS": "bss", "ZEROPAGE": "zp"}.get(name, some.choice(("ro", "rw", "rw")))
    words = [f"load = {load}", f"type = {'bss' if some.random() < 0.06 else kind}"]
    words += [f"run = {some.choice(areas)}"] * (some.random() < 0.25)
    place = some.random()
    if place < 0.3:
        words.append(f"align = {some.choice((2, 4, 8, 16, 32, 3, 10))}")
    elif place < 0.36:
        words.append(f"start = ${0x100 + 0x200 * 'ABCD'.index(load) + some.randint(0, 0x30):X}")
    elif place < 0.46:
        words.append(f"offset = {some.randint(0, 0x30)}")
    words += [f"align_load = {some.choice((2, 4, 8))}"] * (some.random() < 0.1) + [f"fillval = {some.randint(0, 255)}"] * (some.random() < 0.15)
    return f"  {name}: {', '.join(words + ['define = yes'] * (some.random() < 0.7))}, optional = yes;"


def config_of(some):
    """A random config of one to four areas. Some are in a load file of Atari's."""
    areas = "ABCD"[: some.randint(1, 4)]
    lines = ["MEMORY {", *(area(some, it) for it in areas), "}", "SEGMENTS {"]
    lines += [row(some, it, areas) for it in some.sample(SEGMENTS, len(SEGMENTS))] + ["}"]
    if some.random() < 0.1:
        # ld65 loses blocks before an area with `fill` (see LOST).
        lines = [it.replace(", fill = yes", "") for it in lines]
        lines += ["FILES { %O: format = atari; }", "FORMATS { atari: runad = e0; }"]
    return "\n".join(lines) + "\n"


def is_load_file(data):
    """Whether a file is blocks with their addresses up to its end, as Atari's system loads them."""
    at = 2
    while at + 4 <= len(data):
        first, last = (int.from_bytes(data[at + it : at + it + 2], "little") for it in (0, 2))
        at += 4 + (last - first + 1) % 0x10000
    return data[:2] == b"\xff\xff" and at == len(data)


def random_configs(tries, count):
    """Random configs with random objects: none is silently another image. ld65 takes half of them."""
    tries.folder("random")
    some = random.Random(65)
    for number in range(24):
        pages.put(f"m{number}.s", module(some, number))
        subprocess.run(["ca65", "-g", f"m{number}.s"], check=True)
    seen, wrong = Counter(), []
    at = 0
    while seen["same"] + seen["different"] + seen["not compared"] < count:
        some = random.Random(at)
        pages.put("r.cfg", config_of(some))
        words = ["-C", "r.cfg", "-o", "image", "m0.o", *(f"m{it}.o" for it in some.sample(range(1, 24), some.randint(1, 2)))]
        with tempfile.TemporaryDirectory() as room:
            try:
                theirs.link(read_call(words, os.environ, LINKER), LINKER, room)
            except Problem:
                at += 1
                continue
        found = checked(words, tries.tools, False)
        at += 1
        if found.text.endswith(": no file has bytes"):
            continue
        if found.text.endswith(": in a load file"):
            subprocess.run(["ld65", *words], check=True, capture_output=True)
            if not is_load_file(read("image")):
                # The defect of LOST: a block over those before, and what is left of them behind it.
                seen["broken by ld65"] += 1
                continue
        seen[found.verdict] += 1
        if found.verdict != "same":
            wrong.append((at - 1, found.text))
    for it in wrong:
        print(f"random config {it[0]}: {it[1]}")
    tries.check(f"random configs: {dict(seen)}", not wrong, wrong)


MAKEFILE = """all: 1.bin 2.bin 3.bin 4.bin hello.prg
%.bin: ü\\ %.s
\tca65 -g -o 'sub/ü $*.o' 'ü $*.s'
\tld65 -C l.cfg -o $@ 'sub/ü $*.o'
hello.prg: c.c
\tcl65 -t c64 -o $@ -m hello.map c.c
"""
HELLO = "hello.prg: the same image"
# A build, and what its lines and its status are: the build's own output comes first.
SCRIPTS = {
    "ld65 in a script": ("echo building; ld65 @answers", ["building", "5.bin: the same image, 8 bytes (1 module)"], 0),
    "an absolute path": (f"{LINKER} @answers", [], 2),
    "no link": ("true", [], 2),
    "a command that fails": ("ld65 @answers; exit 7", ["5.bin: the same image, 8 bytes (1 module)"], 7),
    "a link that fails": ("ld65 -C missing.cfg m.o", [], 1),
    "a link that isn't compared": ("ld65 -C o65.cfg -o 6.bin m.o",
                                   ["6.bin: not compared: o65.cfg:3: %O has the format o65, which can't be made"], 2),
    "options that link nothing": ("ld65 --version; ld65 @answers", ["5.bin: the same image, 8 bytes (1 module)"], 0),
    "a config beside the linker": ('ld65 -C "$(dirname "$(command -v ld65)")/../share/cc65/cfg/none.cfg" -o 5.bin m.o none.lib',
                                   ["5.bin: the same image, 8 bytes (1 module)"], 0),
    "bin65 as the linker": (f'cl65 -c -t c64 c.c; env -u CC65_HOME sh {WORK65} link -C c64.cfg -o 6.bin c.o c64.lib && ld65 @answers',
                            ["5.bin: the same image, 8 bytes (1 module)"], 0),
    "two folders": ("ld65 @answers; cd sub; ld65 -C ../l.cfg -o 5.bin ../m.o; rm 5.bin",
                    ["5.bin: the same image, 8 bytes (1 module)", "sub/5.bin: the same image, 8 bytes (1 module)"], 0),
    "a config that names its file": ("ld65 -C named.cfg -o 5.bin m.o", ["6.bin: the same image, 8 bytes (1 module)"], 0),
    "a device": ("ld65 -C l.cfg -o /dev/null m.o", ["/dev/null: the same image, 8 bytes (1 module)"], 0),
    "an input that is the output": ("cp m.o 5.bin; ld65 -C l.cfg -o 5.bin 5.bin", ["5.bin: not compared: 5.bin is an input and the output"], 2),
    "a config from a pipe": ("cat l.cfg | ld65 -C /dev/stdin -o 5.bin m.o",
                             ["5.bin: not compared: /dev/stdin: a config can't be read from a pipe"], 2),
    "the tools of CC65_HOME": ('"$CC65_HOME/bin/ld65" @answers; "$CC65_HOME/bin/cl65" -t c64 -o hello.prg c.c',
                               ["5.bin: the same image, 8 bytes (1 module)", HELLO], 0),
}
# Words after `second`, and what is printed; the status is 2.
UNUSABLE = {
    "make": "work65: a command follows --, as in: work65 second -- make\n",
    "--keep -- true": "work65: --keep lacks its folder\n",
    "--keep /dev/null/x -- true": "work65: --keep /dev/null/x: Not a directory\n",
    "ld65 --bogus -C l.cfg -o 6.bin m.o": "6.bin: not compared: --bogus: no option of ld65's\n",
    "ld65 --bogus -o6.bin m.o": "6.bin: not compared: --bogus: no option of ld65's\n",
    "ld65 -C nope.cfg m.o": "a.out: not compared: nope.cfg: no such file\n",
    "--bin65 /bin/true ld65 -C l.cfg -o 6.bin m.o": "6.bin: not compared: /bin/true makes no map: it isn't bin65\n",
    "ld65 -C small.cfg -o 6.bin m.o": "6.bin: not compared: ld65 refuses: ld65: Warning: small.cfg(1): Segment 'CODE' overflows memory area 'M' by 3 bytes "
                                      "ld65: Error: Cannot generate most of the files due to memory area overflow\n",
    "ld65 -C l.cfg -o 6.bin main.o": "6.bin: not compared: ld65 refuses: Unresolved external 'other' referenced in: main.s(3) main.s(4) "
                                     "ld65: Error: 1 unresolved external(s) found - cannot create output file\n",
}


def said(ran):
    """The lines of a run, without the size of the C program, which depends on cc65's library."""
    return [HELLO if it.startswith(f"{HELLO}, ") else it for it in ran.stdout.splitlines()]


def builds(tries):
    """Builds by make, by sh, by cl65 and by ld65 alone, in a folder whose name has blanks and letters that aren't ASCII."""
    folder = tries.folder("prö jekt")
    os.makedirs("sub")
    for name, text in [("Makefile", MAKEFILE), ("c.c", C_PROGRAM), ("l.cfg", PLAIN), ("o65.cfg", PLAIN + "FILES { %O: format = o65; }\n"),
                       *((f"ü {it}.s", PROGRAM) for it in range(1, 5)), ("m.s", PROGRAM), ("main.s", MAIN),
                       ("small.cfg", PLAIN.replace("size = $1000", "size = 3")), ("named.cfg", PLAIN.replace('file = ""; M:', 'file = %O; M: file = "6.bin",')),
                       ("answers", "-C\nl.cfg\n-o\n5.bin\nm.o\n")]:
        pages.put(name, text)
    for it in ("m.s", "main.s"):
        subprocess.run(["ca65", "-g", it], check=True)
    for words, text in UNUSABLE.items():
        ran = tries.run("second", *words.split(), folder=folder, CC65_HOME="/nowhere")
        tries.check(f"unusable: {words}", (ran.returncode, ran.stdout + ran.stderr) == (2, text), ran)
    ran = tries.run("second", "--", "make", "-s", "-j4", folder=folder)
    good = [f"{it}.bin: the same image, 8 bytes (1 module)" for it in range(1, 5)] + [HELLO]
    tries.check("make -j4", ran.returncode == 0 and sorted(said(ran)) == good, ran)
    home = tries.folder("home of cc65")
    shutil.copytree(os.path.dirname(LINKER), f"{home}/bin", ignore=lambda _, names: [it for it in names if not it.endswith("65")])
    for name in os.listdir(CC65):
        os.symlink(f"{CC65}/{name}", f"{home}/{name}")
    for name, (script, lines, status) in SCRIPTS.items():
        before = set(os.listdir(folder))
        ran = tries.run("second", "--", "sh", "-c", script, folder=folder, CC65_HOME=home)
        tries.check(f"a build: {name}", (said(ran), ran.returncode) == (lines, status), ran)
        new = set(os.listdir(folder)) - before
        tries.check(f"nothing is left: {name}", new <= {"5.bin", "6.bin", "c.o"}, new)
        tries.check(f"no link is seen: {name}", ("work65: no link was seen" in ran.stderr) == (lines == [] and status == 2), ran)
    os.makedirs(f"{tries.top}/linker")
    os.symlink(LINKER, f"{tries.top}/linker/ld65")
    script, lines, _ = SCRIPTS["bin65 as the linker"]
    ran = tries.run("second", "--", "sh", "-c", script, folder=folder, PATH=f"{tries.top}/linker:{os.environ['PATH']}")
    tries.check("a linker that is a link", (said(ran), ran.returncode) == (lines, 0), ran)
    ran = tries.run("second", "--json", "--keep", f"{tries.top}/kept", "--", "sh", "-c", "ld65 @answers; echo building; ld65 @answers", folder=folder)
    links = json.loads(ran.stdout)["links"]
    is_so = [(it["verdict"], it["sizes"]) for it in links] == [("same", {"5.bin": 8})] * 2
    tries.check("JSON", is_so and ran.stderr == "building\n", ran)
    ran = tries.run("second", "--keep", f"{tries.top}/kept", "--", "sh", "-c", "ld65 @answers", folder=folder)
    said_then = f"work65: --keep {tries.top}/kept: the folder isn't empty\n"
    tries.check("a folder of an earlier run", (ran.returncode, ran.stdout, ran.stderr) == (2, "", said_then), ran)
    for name in ("5.bin", "5.bin-2"):
        place = f"{tries.top}/kept/{name}"
        os.remove(f"{place}/image")
        again = read(f"{place}/link.txt").decode().replace("bin65", tries.tools.program.path, 1)
        subprocess.run(["/bin/sh", "-c", again], cwd=place, check=True, env={})
        tries.check(f"{name} is repeated without Python", read(f"{place}/image") == read(f"{folder}/5.bin"))


# Names of files: quotes and signs of shells, bytes that aren't UTF-8, a line end, words of ld65's and of configs.
HOSTILE = (b"a'b \"$x\" `id`", b"caf\xe9 \xff", b"new\nline", b"-dash", b"%O%S", b"@at", b"(p)", "日本".encode())


def hostile_names(tries):
    """Objects and images with names that a shell, a terminal or ld65 could take for something else."""
    folder = tries.folder("names")
    tries.arguments(PLAIN, (PROGRAM,), ())
    for at, it in enumerate(HOSTILE):
        os.makedirs(b"to/" + it)
        shutil.copyfile("m0.o", b"to/" + it + b"/m.o")
        words = (b"./to/" + it + b"/" + it, b"./to/" + it + b"/m.o")
        script = 'ld65 -C l.cfg -o "$1" "$2"'
        how = {**tries.environment, "LC_ALL": "C"}
        command = ["/bin/sh", WORK65, "second", "--keep", f"kept{at}", "--", "sh", "-c", script, "sh", *words]
        ran = subprocess.run(command, cwd=folder, capture_output=True, env=how, check=False)
        good = words[0].replace(b"\n", b"?") + b": the same image, 8 bytes (1 module)\n"
        tries.check(f"the name of a kept link: {it}", os.listdir(f"kept{at}".encode()) == [it], it)
        tries.check(f"a name: {it}", (ran.returncode, ran.stdout, ran.stderr) == (0, good, b""), ran)
        command = ["/bin/sh", WORK65, "link", "-C", "l.cfg", "-o", words[0] + b".2", words[1]]
        ran = subprocess.run(command, cwd=folder, capture_output=True, env=how, check=False)
        tries.check(f"a name: {it}, link", ran.returncode == 0 and read(words[0] + b".2") == read(words[0]), ran)


def read(name):
    with open(name, "rb") as it:
        return it.read()


def linker_with(tries, name, change):
    """A folder with a linker like cc65's that changes what it made by a command of Python's: B has the bytes of the image, M the map."""
    folder = f"{tries.top}/{name}"
    os.makedirs(folder)
    pages.put(f"{folder}/ld65", f"""#!{sys.executable}
import subprocess, sys
status = subprocess.run(["{LINKER}", *sys.argv[1:]]).returncode
image, map = (sys.argv[sys.argv.index(it) + 1] for it in ("-o", "-m"))
B = bytearray(open(image, "rb").read()); M = open(map).read()
{change}
open(image, "wb").write(B); open(map, "w").write(M)
sys.exit(status)
""")
    os.chmod(f"{folder}/ld65", 0o755)
    return {"PATH": f"{folder}:{os.environ['PATH']}"}


# What a linker changes, and what is said then. CODE has 6 bytes from $800 on; then follow DATA's 2.
CHANGES = {
    "an operand": ("B[1] ^= 1", "image differs from byte 1 on (ld65 and bin65: 09 and 08): area M, segment CODE, module m0.o, m0.s:11\n"),
    "data": ("B[7] ^= 1", "image differs from byte 7 on (ld65 and bin65: 03 and 02): area M, segment DATA, module m0.o\n"),
    "shorter": ("del B[-1]", "image: ld65 has 7 bytes, bin65 8: area M, segment DATA, module m0.o\n"),
    "an address of BSS": ('M = M.replace("000808  00080A", "000809  00080B")',
                          "image: the same image, but other addresses: segment BSS has 3 bytes at $0809 in ld65's map, 3 at $0808 in bin65's\n"),
    "a label": ('M = M.replace("start                     000800", "start                     000801")',
                "image: the same image, but other addresses: start is $0801 in ld65's map, $0800 in bin65's\n"),
}


def differences(tries):
    """A linker that makes another byte or has another address in its map."""
    folder = tries.folder("differences")
    words = tries.arguments(PLAIN, (PROGRAM,), ())
    for name, (change, said) in CHANGES.items():
        ran = tries.run("second", "ld65", *words, folder=folder, **linker_with(tries, f"linker {name}", change))
        tries.check(f"a difference: {name}", (ran.returncode, ran.stdout, ran.stderr) == (1, said, ""), ran)


def lost(tries):
    """A block that ld65 loses is found; without the segment of no bytes both linkers make the same load file."""
    for segment, is_same in ((".bss\n .res 2\n", False), (".code\n", True)):
        folder = tries.folder(f"lost {is_same}")
        words = tries.arguments(LOST, (f" .code\n .byte 1, 2\n {segment}",), ())
        ran = tries.run("second", "ld65", *words, folder=folder)
        said = "image: the same image, 16 bytes (1 module)\n" if is_same else \
            "image differs from byte 3 on (ld65 and bin65: 09 and 08): in a load file\n"
        tries.check(f"a lost block: {is_same}", (ran.returncode, ran.stdout) == (int(not is_same), said), ran)


def links(tries):
    """work65 link writes what cc65's linker would, with bin65's map and labels; a Makefile takes it as its linker."""
    folder = tries.folder("links")
    words = tries.arguments(PLAIN, (PROGRAM,), ())
    subprocess.run(["ld65", *words], check=True)
    good = read("image")
    ran = tries.run("link", *words, "-o", "image", "-m", "map", "-Ln", "labels", folder=folder)
    tries.check("link: -o twice", ran.returncode == 1 and "twice" in ran.stderr, ran)
    os.remove("image")
    ran = tries.run("link", *words, "-m", "map", "-Ln", "labels", folder=folder)
    tries.check("link", ran.returncode == 0 and not ran.stdout + ran.stderr and read("image") == good, ran)
    tries.check("the map", b"\nm0.o\n  CODE 00000000 00000006\n" in read("map") and b"\n_main 0000000000000800\n" in read("map"), read("map"))
    tries.check("the labels", b"al 000805 .e\n" in read("labels"), read("labels"))
    ran = tries.run("link", *words, "--dbgfile", "x", folder=folder)
    tries.check("link: a debug file", ran.returncode == 1 and not os.path.exists("x"), ran)
    ran = tries.run("link", "-C", "l.cfg", "-o", "no/image", "m0.o", folder=folder)
    tries.check("link: no such folder", ran.returncode == 1 and ran.stderr == "work65: no/image: No such file or directory\n", ran)
    ran = tries.run("link", "-C", "l.cfg", "-o", "new", "-m", "/dev/full", "m0.o", folder=folder)
    tries.check("link: a full disk", ran.returncode == 1 and not os.path.exists("new"), ran)


def alone(tries):
    """What is said without cc65."""
    tools = f"{tries.top}/tools without cc65"
    os.makedirs(tools)
    for it in ("python3", "sh", "dirname", "readlink"):
        os.symlink(shutil.which(it), f"{tools}/{it}")
    for words in (("ld65", "-C", "a.cfg", "a.o"), ("--", "true")):
        ran = tries.run("second", *words, PATH=tools, CC65_HOME="")
        tries.check(f"no cc65: {words}", (ran.returncode, ran.stderr) == (2, "work65: cc65's ld65 isn't on the path\n"), ran)
    for words, status in (((), 2), (("-C", "none.cfg", "none.o"), 1), (("-o",), 1)):
        ran = tries.run("link", *words, PATH=tools, CC65_HOME="")
        tries.check(f"no cc65: link {words}", ran.returncode == status and ran.stderr.startswith("work65: ") and not ran.stdout, ran)


def main():
    count = int(sys.argv[2]) if len(sys.argv) > 2 else 300
    with tempfile.TemporaryDirectory() as top:
        tries = Tries(os.path.abspath(sys.argv[1]), top)
        os.makedirs(f"{top}/temporary")
        os.environ["XDG_CACHE_HOME"] = f"{top}/cache"
        alone(tries)
        if all(map(shutil.which, ("ca65", "ld65", "ar65", "cl65", "make"))):
            cases(tries)
            refusals(tries)
            builds(tries)
            hostile_names(tries)
            differences(tries)
            lost(tries)
            links(tries)
            configs(tries)
            random_configs(tries, count)
            tries.check("nothing is left", not os.listdir(f"{top}/temporary"), os.listdir(f"{top}/temporary"))
        else:
            print("cc65 isn't here: nothing is linked twice and compared")
        os.chdir("/")
        return report(tries.checks)


if __name__ == "__main__":
    sys.exit(main())
