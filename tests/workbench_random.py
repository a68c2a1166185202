#!/usr/bin/env python3
"""Tests `work65 port` on random programs: after the conversion each has cc65's image, or a construct is reported. Without cc65
nothing is tested.

usage: workbench_random.py BIN65 [COUNT [SEED [KIND]]]: COUNT programs of each kind (30), or of one. The last line is 'N passed,
M failed'."""
import collections
import contextlib
import io
import os
import random
import shutil
import subprocess
import sys
import tempfile

import pages

sys.path.insert(0, f"{pages.ROOT}/workbench")
from work65.main import main as work65  # noqa: E402

SCRIPT = """MEMORY {
    Z: file = "", start = $0010, size = $F0;
    M: file = %O, start = $3000, size = $6000;
    R: file = "", start = $0200, size = $1000;
}
SEGMENTS {
    ZEROPAGE: load = Z, type = zp, optional = yes;
    SHORT: load = Z, type = zp, optional = yes;
    CODE: load = M, type = rw;
    RODATA: load = M, type = rw, optional = yes;
    DATA: load = M, type = rw, optional = yes;
    BSS: load = R, type = bss, optional = yes;
}
"""
INDEXED = "lda ldx ldy sta adc cmp and eor ora inc dec asl lsr stx sty cpx bit".split()


class Source:
    """A source that is written line by line."""

    def __init__(self, chance):
        self.chance, self.lines, self.count = chance, [], 0

    def put(self, *lines):
        self.lines += lines

    def fresh(self, stem):
        """A name that no other line has defined."""
        self.count += 1
        return f"{stem}{self.count}"

    def number(self, most=300):
        return self.chance.choice((str, lambda it: f"${it:X}", lambda it: f"%{it:b}"))(self.chance.randrange(most))

    def text(self):
        return "\n".join(self.lines) + "\n"


# ---- Everyday idiom.


def everyday(source):
    """Defines, structs, enums, macros, strings, long branches and data."""
    chance = source.chance
    numbers, tables, labels, zero_page, macros, structs, enums = [], [], [], [], [], [], []

    def constant():
        return chance.choice(numbers) if numbers and chance.random() < 0.6 else source.number()

    def define():
        name = source.fresh("N_")
        source.put(f".define {name} {source.number()}" if chance.random() < 0.6 else f"{name} = {constant()} + 1")
        numbers.append(name)

    def struct():
        name, members = source.fresh("S"), [source.fresh("m") for _ in range(chance.randint(1, 4))]
        sizes = [chance.choice((".byte", ".word", ".res 3", ".addr")) for _ in members]
        source.put(f".struct {name}", *(f"        {it} {size}" for it, size in zip(members, sizes)), ".endstruct")
        structs.append((name, members))

    def enum():
        name, members = source.fresh("E"), [source.fresh("V") for _ in range(chance.randint(1, 4))]
        source.put(f".enum {name}", *(f"        {it}{f' = {source.number(40)}' if chance.random() < 0.3 else ''}" for it in members), ".endenum")
        enums.append((name, members))

    def variable():
        zero_page.append(source.fresh("z"))
        source.put(".zeropage", f"{zero_page[-1]}: .res {chance.randint(1, 3)}", ".code")

    def record():
        if structs:
            tables.append(source.fresh("r"))
            source.put(".bss", f"{tables[-1]}: .tag {chance.choice(structs)[0]}", ".code")

    def macro():
        name, kinds = source.fresh("mac"), chance.randint(0, 2)
        source.put(f".macro {name} {', '.join(['arg', 'more'][:kinds])}".rstrip())
        for _ in range(chance.randint(1, 3)):
            operand = chance.choice((f"#<{constant()}", "arg" if kinds else source.number(), "more,x" if kinds > 1 else constant()))
            source.put(f"        {chance.choice(('lda', 'sta', 'adc', 'ldy'))} {operand.replace('#', '') if 'sta' in operand else operand}")
        source.put(*([".local skip", "        bne skip", "        nop", "skip:"] if chance.random() < 0.4 else []), ".endmacro")
        macros.append((name, kinds))

    def call():
        if macros:
            name, kinds = chance.choice(macros)
            values = [chance.choice([*zero_page, *tables, *labels, constant(), "#5"]) for _ in range(kinds)]
            source.put(f"        {name} {', '.join(values)}".rstrip())

    def data():
        labels.append(source.fresh("d"))
        strings = '"A string", 0', '"x", $0D, \'q\''
        element = chance.choice((constant(), f"<{constant()}", f"{constant()} / 2", f"({constant()} + 3) * 2 & $FF"))
        body = chance.choice((f".word {element}, {constant()}", f".byte {strings[0]}", f".byte {strings[1]}", f".res {chance.randint(0, 3)}, $EA",
                              f".byte <({element}), >({element})", f".lobytes {constant()}, {constant()}"))
        source.put(chance.choice((".rodata", ".code", ".data")), f"{labels[-1]}: {body}", ".code")

    def code():
        choices = [*zero_page, *tables, *labels, constant(), f"#<{constant()}"]
        if structs:
            name, members = chance.choice(structs)
            choices += [f"#{name}::{chance.choice(members)}", f"#.sizeof({name})", *(f"{it} + {name}::{chance.choice(members)}" for it in tables)]
        if enums:
            name, members = chance.choice(enums)
            choices += [f"#{name}::{chance.choice(members)}", f"{name}::{chance.choice(members)}"]
        operand = chance.choice(choices)
        words = ("lda", "adc", "cmp") if operand.startswith("#") else ("lda", "sta", "adc", "inc", "ldx")
        source.put(f"        {chance.choice(words)} {operand}")

    def branch():
        name = source.fresh("l")
        kind = chance.choice(("jeq", "jne", "bcs", "jcc", "bne"))
        if chance.random() < 0.5:
            source.put(f"{name}:", *(["        nop"] * chance.choice((1, 3, 140) if kind[0] == "j" else (1, 3))), f"        {kind} {name}")
        else:
            source.put(f"        {kind} {name}", *(["        nop"] * chance.choice((1, 3))), f"{name}:")

    def proc():
        name = source.fresh("p")
        source.put(f".proc {name}", "@loop:", "        dex")
        for _ in range(chance.randint(1, 3)):
            code()
        source.put("        bne @loop", "        rts", ".endproc", f"        jsr {name}")
        labels.append(name)

    def condition():
        source.put(f".if {constant()} > {source.number()}", "        nop", ".else", "        iny", ".endif")

    def repeat():
        source.put(f".repeat {chance.randint(0, 4)}, i", f"        .byte i * 2, <({constant()} + i)", ".endrepeat")

    source.put(".macpack longbranch")
    parts = (define, struct, enum, variable, record, macro, call, call, data, code, code, branch, proc, condition, repeat)
    for _ in range(chance.randint(6, 30)):
        chance.choice(parts)()


# ---- Nested scopes.


def nested(source):
    """Scopes in scopes: names of the zero page, constants and differences, used and defined in each, with indices and prefixes."""
    chance = source.chance
    names = [source.fresh("n") for _ in range(chance.randint(3, 6))]
    source.put(".zeropage", "zp0: .res 2", '.segment "SHORT": zeropage', "sh0: .res 2", "sh1: .res 2", ".bss", "far0: .res 2", "far1: .res 2", ".code")
    source.put("at0: nop", "at1: nop")
    known = ["zp0", "sh0", "far0"]

    def operand():
        name = chance.choice([*names, *known])
        return chance.choice((name, name, name, f"{name} + 1", f"<{name}", f"{name} - 1", "at1 - at0", "sh1 - sh0", f"<(at1 - at0)", f"::{chance.choice(known)}",
                              f".lobyte({name})", source.number(), f"({name}) & $FF", "far1 - far0 + 2"))

    def line():
        word, it = chance.choice(INDEXED), operand()
        index = chance.choice(("", "", ",x", ",y")) if word in ("lda", "sta", "adc", "cmp", "and", "eor", "ora") else ""
        source.put(f"        {word} {'+' if it.startswith('(') else ''}{it}{index}" if not it.startswith("#") else f"        lda {it}")

    def definition(depth):
        name = chance.choice(names)
        body = chance.choice((f"{name} = {source.number()}", f"{name} = at1 - at0", f"{name} = zp0", f"{name}: nop", f"{name} = far0", f"{name} := sh0 + 1"))
        source.put(body)

    def cheap():
        name = source.fresh("@c")
        source.put(f"{name}: nop", f"{name}b: nop", f"        {chance.choice(('lda', 'inc'))} {name}b - {name}", ":", "        lda :- - :-")

    def scope(depth):
        kind, name = chance.choice((("scope", source.fresh("s")), ("proc", source.fresh("q")), ("scope", "")))
        source.put(f".{kind} {name}".rstrip())
        taken = set()
        for _ in range(chance.randint(1, 6)):
            part = chance.random()
            if part < 0.25 and depth < 4:
                scope(depth + 1)
            elif part < 0.4:
                name_before = len(source.lines)
                definition(depth)
                defined = source.lines[-1].split()[0].rstrip(":")
                if defined in taken:
                    del source.lines[name_before:]
                taken.add(defined)
            elif part < 0.45:
                cheap()
            else:
                line()
        source.put(f".end{kind}")
        if name and taken and chance.random() < 0.5:
            source.put(f"        lda {name}::{chance.choice(sorted(taken))}")
        if kind == "proc" and depth == 1:
            known.append(name)

    for _ in range(chance.randint(1, 3)):
        line()
        scope(1)
    for it in names:
        source.put(chance.choice((f"{it} = {source.number()}", f"{it}: nop", f"{it} = zp0 + 1")))


# ---- Forms.


def forms(source):
    """Macros, repeats, long branches and sums whose operands take other forms in inner scopes."""
    chance = source.chance
    source.put(".macpack longbranch", ".macpack generic", ".zeropage", "z0: .res 2", "z1: .res 2", ".bss", "f0: .res 2", ".code", "e0: nop", "e1: nop")
    source.put("k0 = e1 - e0", "k1 = 5", "k2 = z0 + 1")
    operands = ["z0", "z1", "f0", "k0", "k1", "k2", "z1 + 1", "e1 - e0", "<z0", "z1 - z0", "12", "$1234", "::z0", "k0 + k1"]
    macros = []

    def operand():
        return chance.choice(operands)

    for _ in range(chance.randint(1, 4)):
        name = source.fresh("mac")
        source.put(f".macro {name} arg")
        for _ in range(chance.randint(1, 4)):
            part = chance.randrange(6)
            if part == 0:
                source.put(f".repeat {chance.randint(1, 3)}, i", f"        lda {chance.choice(('i', 'arg + i', 'arg', operand()))}", ".endrepeat")
            elif part == 1 and macros:
                source.put(f"        {chance.choice(macros)} {chance.choice(('arg', operand()))}")
            else:
                source.put(f"        {chance.choice(('lda', 'inc', 'sta', 'ldx', 'cmp'))} {chance.choice(('arg', 'arg', operand()))}")
        source.put(".endmacro")
        macros.append(name)

    def body(depth):
        for _ in range(chance.randint(2, 7)):
            part = chance.randrange(9)
            if part < 2 and depth < 3:
                kind = chance.choice(("scope", "proc"))
                source.put(f".{kind} {source.fresh('s')}")
                body(depth + 1)
                source.put(f".end{kind}")
            elif part < 4:
                source.put(f"        {chance.choice(macros)} {operand()}")
            elif part == 4:
                source.put(f".repeat {chance.randint(1, 3)}, i", f"        {chance.choice(('lda', 'dec'))} {operand()}", "        lda i", ".endrepeat")
            elif part == 5:
                name = source.fresh("l")
                source.put(f"{name}:", *["        nop"] * chance.choice((1, 140)), f"        {chance.choice(('jne', 'jcc'))} {name}")
            elif part == 6:
                source.put(f"        {chance.choice(('add', 'sub'))} {chance.choice(('#1', operand(), operand() + ',x'))}")
            else:
                source.put(f"        {chance.choice(('lda', 'sta', 'adc', 'asl'))} {operand()}{chance.choice(('', ',x'))}")

    body(0)


KINDS = {"everyday": everyday, "nested": nested, "forms": forms}


def image(assembler, linker, source, folder):
    """The image of a source, or what was said."""
    for words in ([*assembler, "-o", "a.o", source], [*linker, "-C", "l.cfg", "-o", "a.bin", "a.o"]):
        ran = subprocess.run(words, cwd=folder, capture_output=True, text=True, check=False)
        if ran.returncode:
            return ran.stderr
    with open(f"{folder}/a.bin", "rb") as it:
        return it.read()


def port(folder):
    """Runs work65 port on a.s. Returns its status and its lines."""
    said, here = io.StringIO(), os.getcwd()
    os.chdir(folder)
    try:
        with contextlib.redirect_stdout(said), contextlib.redirect_stderr(said):
            status = work65(["port", "a.s", "-o", "out"])
    finally:
        os.chdir(here)
    return status, said.getvalue()


def tried(program, text):
    """Returns the result for a source: rejected by cc65, the same image, reported, or silently different; and the report."""
    with tempfile.TemporaryDirectory() as folder:
        pages.put(f"{folder}/a.s", text)
        pages.put(f"{folder}/l.cfg", SCRIPT)
        theirs = image(["ca65"], ["ld65"], "a.s", folder)
        if not isinstance(theirs, bytes):
            return "refused by cc65", theirs
        status, said = port(folder)
        if status:
            return "said", said
        shutil.copy(f"{folder}/l.cfg", f"{folder}/out/l.cfg")
        ours = image([program, "ca65"], [program, "ld65"], "a.s", f"{folder}/out")
        return ("the same", said) if ours == theirs else ("SILENT", f"{said}{ours!r}\n{theirs!r}")


def main():
    program = os.path.abspath(sys.argv[1])
    given = sys.argv[2:]
    count, seed, only = (given + ["30", "1", ""][len(given) :])[:3]
    count, seed = int(count), int(seed)
    os.environ["BIN65"] = program
    failed = passed = 0
    if shutil.which("ca65") is None or shutil.which("ld65") is None:
        print("cc65 isn't installed: nothing is compared")
        count = 0
    for kind, write in KINDS.items() if count else ():
        if only not in ("", kind):
            continue
        counts = collections.Counter()
        for number in range(count):
            source = Source(random.Random(f"{kind} {seed} {number}"))
            write(source)
            what, said = tried(program, source.text())
            counts[what] += 1
            if what == "SILENT":
                print(f"{kind} {seed} {number}: {said}\n{source.text()}")
        print(f"{kind}: {', '.join(f'{it} {counts[it]}' for it in sorted(counts))}")
        failed += counts["SILENT"] + (counts["the same"] == 0)
        passed += counts["the same"] + counts["said"]
    print(f"{passed} passed, {failed} failed")
    sys.exit(failed > 0)


if __name__ == "__main__":
    main()
