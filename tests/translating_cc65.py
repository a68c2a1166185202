#!/usr/bin/env python3
"""Tries the translation of objects and libraries of cc65's tools beside those tools: the reader beside od65; random expressions,
ranges, sources, changed bits and programs that use a library, translated and linked by bin65 beside ld65; the lines in messages;
the example of `work65 convert`. Without cc65 nothing is tried.

usage: translating_cc65.py BIN65 [all]. With `all`, all libraries are translated, and ten times as many objects. The last line is
'N passed, M failed'."""
import glob
import itertools
import os
import random
import re
import shutil
import subprocess

import pages
from made_objects import made_object
from translations import (DWORD, LIBRARIES, SHIFT_RIGHT, TOOLS, WORK65, provider,
                          random_expression, read, run_parts,
                          translated, user, write)
from work65.translating import cc65_objects, libraries

def expressions(tries):
    """Random expressions: all 64 bits of each, by both linkers."""
    chance, refused, different, links = random.Random(65), [], [], 1000 if tries.is_all else 100
    for at in range(links):
        trees = [random_expression(chance, chance.randrange(1, 5)) for _ in range(20)]
        fragments = [(4, False, (DWORD, it)) for it in trees]
        fragments += [(4, False, (DWORD, (SHIFT_RIGHT, it, 32))) for it in trees]
        for width, tree in zip((1, 2, 3, 4), trees):
            part = (SHIFT_RIGHT, (DWORD, tree), 32 - 8 * width)
            lower = (0x02, part, (0x09, 1, 8 * width - 1))
            fragments += [(width, False, part), (width, True, lower)]
        objects = (user(fragments, [((0x06, 1, trees[0]), 3, "no")]), provider())
        wanted, found = tries.by_ld65(objects), tries.by_bin65(objects)
        if isinstance(found, str):
            refused.append((found, wanted is None))
        elif wanted != found:
            different.append(at)
    tries.check(f"{links * 20} random expressions: no other image", not different, different[:9])
    tries.check("few of them are refused", len(refused) * 20 < links, refused[:9])
    print(f"{links} links of 20 random expressions: {len(different)} differ, {len(refused)} refused: {set(it for it, _ in refused)}")


def ranges(tries):
    """Values around the limits of each width, as numbers and as what only the linker knows: both
    linkers accept or refuse them."""
    limits = (0, 1 << 7, 1 << 8, 1 << 15, 1 << 16, 1 << 23, 1 << 24, 1 << 31, 1 << 32, -(1 << 7),
              -(1 << 15), -(1 << 23), -(1 << 31))
    wrong, accepted, refused = [], [], 0
    for width, is_signed in itertools.product((1, 2, 3, 4), (False, True)):
        for value in sorted({it + more for it in limits for more in (-1, 0, 1)}):
            low = (0x01, (0x02, value, 0x1234), ("import", 2))
            if not -(1 << 30) < value < 1 << 30:
                low = wide(value)
            for tree in (low, value) if -(1 << 31) <= value < 1 << 31 else (low,):
                fragment = (width, is_signed, tree)
                objects = (user([fragment]), provider())
                if tries.by_ld65(objects) is not None:
                    accepted.append(fragment)
                elif isinstance(tries.by_bin65(objects), str):
                    refused += 1
                else:
                    wrong.append((width, is_signed, hex(value)))
    tries.check("values that don't fit are refused", not wrong and refused > 100,
                (refused, wrong[:9]))
    objects = (user(accepted), provider())
    tries.check("values that fit",
                len(accepted) > 100 and tries.by_ld65(objects) == tries.by_bin65(objects),
                len(accepted))
    print(f"{len(accepted)} values fit, {refused} don't")


def wide(value):
    """A value that only the linker knows, of parts that fit 32 bits: third is $1234."""
    unknown = (0x02, ("import", 2), 0x1234)
    return (0x01, (0x01, unknown, (0x09, (0x01, unknown, value >> 16), 16)), value & 0xFFFF)


# A source in which one of the values doesn't fit, and where cc65's linker says that it is: in a
# macro, in a macro's macro, in an include.
PLACES = """ .importzp third
 .macro inner what
 .byte what
 .endmacro
 .macro outer what
 nop
 inner what
 .endmacro
 .code
 .byte {0}third
 lda #{1}third
 inner {2}third
 outer {3}third
 .include "places.inc"
 .repeat 2, I
 .byte 0, {5}third + I
 .endrepeat
 .dbg file, "main.c", 10, 20
 .dbg line, "main.c", 77
 .byte {6}third
"""


def places(tries):
    """The file and the line of a value out of range, as both linkers say them."""
    for at in range(7):
        fits = ["" if it == at else "<" for it in range(7)]
        pages.put(f"{tries.top}/places.s", PLACES.format(*fits))
        pages.put(f"{tries.top}/places.inc", f"\n .byte {fits[4]}third\n")
        for words in ((), ("-g",)):
            tries.ran("ca65", *words, "places.s", "-o", "places.o")
            objects = (read(f"{tries.top}/places.o"), provider())
            tries.by_ld65(objects)
            said_ = tries.ran("ld65", "-C", "m.cfg", "-o", "cc65.bin", "0.o", "1.o").stderr.decode()
            wanted = re.search(r"Range error in module '(.*)', line (\d+)", said_)
            found = tries.by_bin65(objects)
            place = f"{wanted[1]}:{wanted[2]}" if wanted else None
            is_so = found == f"0.r65:{place}: Error: out of range\n"
            tries.check(f"place {at}{''.join(words)}", is_so, (said_, found))


def bits(tries):
    """Objects with one changed bit: where cc65's linker makes an image, the same or a message."""
    chance, linked, wrong, refused = random.Random(8), 0, [], []
    objects = [user([b"abc", (2, False, ("import", 0)), (1, False, (0x48, ("import", 1))),
                     ("fill", 3), (3, False, ("section", 0)), b"end"]), provider()]
    for at in range(1500 if tries.is_all else 200):
        which = chance.randrange(2)
        changed = list(objects)
        changed[which] = flipped(changed[which], chance.randrange(96 * 8, len(changed[which]) * 8))
        wanted = tries.by_ld65(changed)
        if wanted is None:
            continue
        linked, found = linked + 1, tries.by_bin65(changed)
        if isinstance(found, str):
            refused.append(found)
        elif found != wanted:
            wrong.append(at)
    tries.check("changed bits: the same image or a message",
                not wrong and linked > 50 and len(refused) < linked // 2,
                (linked, wrong, refused[:5]))
    print(f"{linked} links of objects with a changed bit: {len(refused)} refused, {len(wrong)} differ")


def flipped(data, bit):
    """The same bytes but one bit."""
    return data[: bit // 8] + bytes((data[bit // 8] ^ 1 << bit % 8,)) + data[bit // 8 + 1 :]


def listed_by_od65(text):
    """What od65 shows of objects: of each the segments, the imports and the exports."""
    found = []
    for file in re.split(r"^\S.*:\n", text, flags=re.M)[1:]:
        tables = dict(re.findall(r"^  (Segments|Imports|Exports):\n((?:    .*\n)+)", file, re.M))
        line, items = re.compile(r"^      ([^:\n]+): +(.*)$", re.M), {}
        for name, body in tables.items():
            items[name] = [dict(line.findall(it)) for it in body.split("    Index:")[1:]]
        found.append((
            [(it["Name"], int(it["Size"]), int(it["Alignment"]), it["Address size"][:4],
              int(it["Fragment count"])) for it in items["Segments"]],
            [(it["Address size"][:4], it["Name"]) for it in items["Imports"]],
            [(it["Address size"][:4], it["Name"], it["Type"].partition("CONDES=")[2].rstrip(")"),
              it.get("Value", "")[:10]) for it in items["Exports"]],
        ))
    return found


def listed_by_reader(obj):
    """The same of an object."""
    exports = []
    for it in obj.exports:
        tables = ",".join(f"[{kind},{priority}]" for kind, priority in it.condes)
        exports.append((f"0x{it.address_size:02X}", f'"{it.name}"', tables,
                        f"0x{it.value:08X}" if isinstance(it.value, int) else ""))
    return (
        [(f'"{it.name}"', it.size, it.alignment, f"0x{it.address_size:02X}",
          it.fragment_count) for it in obj.sections],
        [(f"0x{it.address_size:02X}", f'"{it.name}"') for it in obj.imports],
        exports,
    )


def beside_od65(tries):
    """The members of a library as od65 shows them."""
    for name in ("atari.lib", "geos-cbm.lib", "c64.lib") if tries.is_all else ("c64.lib",):
        folder = f"{tries.top}/{name}.members"
        os.makedirs(folder)
        members = cc65_objects.read_library(read(f"{LIBRARIES}/{name}"), name)
        subprocess.run(["ar65", "x", f"{LIBRARIES}/{name}", *(it.name for it in members)],
                       cwd=folder, check=True)
        are_all = sorted(os.listdir(folder)) == sorted(it.name for it in members)
        are_same = all(read(f"{folder}/{it.name}") == it.data for it in members)
        tries.check(f"{name}: the members", are_all and are_same)
        words = ["od65", "--dump-segments", "--dump-imports", "--dump-exports",
                 *(it.name for it in members)]
        shown = listed_by_od65(subprocess.run(words, cwd=folder, capture_output=True, text=True,
                                              check=True).stdout)
        read_ = [listed_by_reader(it.object()) for it in members]
        wrong = [(it.name, one, two) for it, one, two in zip(members, shown, read_) if one != two]
        tries.check(f"{name}: {len(members)} objects beside od65",
                    len(shown) == len(read_) > 400 and not wrong, wrong[:1])


# What cc65's assembler writes, in a source of random lines: operators and functions of expressions,
# and statements of a value.
SIGNS = ("+", "-", "*", "&", "|", "^", "=", "<>", "<", ">", "<=", ">=", "&&", "||", ".xor")
FUNCTIONS = ("<({})", ">({})", "^({})", "~({})", "(.not ({}))", "-({})", ".loword({})",
             ".hiword({})", "({}) / 3", "({}) .mod 7", "({}) << 2",
             "({}) >> 5", ".max({}, {})", ".min({}, {})", ".lobyte({})", ".hibyte({})",
             ".bankbyte({})")
STATEMENTS = (".byte .lobyte({})", ".word .loword({})", ".dword ({}) & $7FFFFFFF",
              ".faraddr .loword({})", ".dbyt .loword({})", "lda #<({})",
              "ldx #>({})", ".assert ({}) <> $1234567, lderror, \"no\"")
ADDRESSES = ("lda {}", "jmp {}", "brl {}", "per {}", "jsl {}", "lda f:{}", ".addr {}, {}",
             "sta {} + 3, x", ".faraddr {}", ".word .loword({} - *)", "pea {}")


class Sources:
    """Random sources of three modules that use each other's labels."""

    def __init__(self, chance):
        self.chance = chance
        self.labels = [[f"l{module}_{at}" for at in range(4)] for module in range(3)]

    def address(self, module):
        return self.chance.choice(self.labels[self.chance.randrange(3)])

    def expression(self, module, depth):
        if depth == 0 or self.chance.random() < 0.2:
            number = self.chance.choice((str(self.chance.randrange(300)),
                                         f"${self.chance.randrange(1 << 31):X}"))
            return self.chance.choice((self.address(module), self.address(module), number))
        parts = [self.expression(module, depth - 1) for _ in range(2)]
        if self.chance.random() < 0.4:
            return self.chance.choice(FUNCTIONS).format(*parts)
        return f"({parts[0]} {self.chance.choice(SIGNS)} {parts[1]})"

    def line(self, module):
        kind = self.chance.randrange(20)
        if kind < 9:
            value = self.expression(module, self.chance.randrange(4))
            return self.chance.choice(STATEMENTS).format(value)
        if kind < 16:
            return self.chance.choice(ADDRESSES).format(self.address(module), self.address(module))
        return self.chance.choice((".res 3", ".align 4", ".byte \"text\"", ".rodata", ".data",
                                   ".code", ".code", "nop", "bne *+4", ".res 2, 7"))

    def source(self, module):
        others = [it for at, labels in enumerate(self.labels) if at != module for it in labels]
        lines = [f".export {', '.join(self.labels[module])}", f".import {', '.join(others)}",
                 ".code"]
        for label in self.labels[module]:
            lines += [f"{label}:", *(self.line(module) for _ in range(5))]
        return "".join(f" {it}\n" if not it.endswith(":") else f"{it}\n" for it in lines)


def sources(tries):
    """Random sources, assembled by cc65."""
    linked, refused, different = 0, [], []
    for at in range(600 if tries.is_all else 60):
        made, objects = Sources(random.Random(at)), []
        for module in range(3):
            pages.put(f"{tries.top}/s{module}.s", made.source(module))
            words = ("-g",) if at % 2 else ()
            ran = tries.ran("ca65", "--cpu", "65816", *words, f"s{module}.s", "-o", f"s{module}.o")
            objects += [read(f"{tries.top}/s{module}.o")] if ran.returncode == 0 else []
        wanted = tries.by_ld65(objects) if len(objects) == 3 else None
        if wanted is None:
            continue
        linked, found = linked + 1, tries.by_bin65(objects)
        if isinstance(found, str):
            refused.append(found)
        elif found != wanted:
            different.append(at)
    tries.check("random sources: the same image",
                not different and len(refused) * 100 <= linked > 30,
                (linked, refused[:5], different))
    print(f"{linked} links of 3 random sources: {len(different)} differ, {len(refused)} refused")


def whole_libraries(tries):
    """Libraries of cc65's: bin65 reads all members, and programs that use some of them have the
    same image."""
    names = sorted(glob.glob(f"{LIBRARIES}/*.lib")) if tries.is_all else [f"{LIBRARIES}/{it}.lib" for it in ("c64", "atari2600")]
    for path in names:
        name, data = os.path.basename(path), read(path)
        library = libraries.library_of(data, name)
        members = cc65_objects.read_library(data, name)
        write(f"{tries.top}/{name}", library.data)
        ran = tries.ran(tries.program, "ar65", "t", name)
        are_all = ran.stdout.decode().split() == [it.name for it in members]
        tries.check(f"{name}: bin65 reads it",
                    are_all and not any(it.refusal for it in library.members))
        wrong = []
        for fact, member in zip(library.members, members):
            obj = member.object()
            tables = tuple((it.name, *pair) for it in obj.exports for pair in it.condes)
            if (set(fact.exports), set(fact.imports), fact.condes, fact.sections) != (
                    {it.name for it in obj.exports}, {it.name for it in obj.imports}, tables,
                    tuple((it.name, it.size) for it in obj.sections)):
                wrong.append(fact)
        tries.check(f"{name}: what is known of the members", not wrong and len(members) > 400,
                    wrong[:1])
        drawn(tries, path, name, library)


def drawn(tries, path, name, library):
    """Programs that use two exports of a library, linked by both linkers."""
    chance, linked, wrong = random.Random(name), 0, []
    rows = sorted({segment for it in library.members for segment, _ in it.sections} | {"CODE"})
    pages.put(f"{tries.top}/l.cfg",
              "MEMORY { ZP: start = 0, size = $100; M: start = $1000, size = $E000; }\nSEGMENTS {\n" + "".join(
        f"{it}: load = {'ZP, type = zp' if it == 'ZEROPAGE' else 'M'}, optional = yes;\n" for it in rows) + "}\n")
    exports = [name for it in library.members for name in it.exports]
    for _ in range(100 if tries.is_all else 16):
        used = chance.sample(exports, 2)
        user_ = made_object([("CODE", 1, [(2, False, (0x4C, ("import", at))) for at in range(2)])],
                            used)
        write(f"{tries.top}/u.o", user_)
        write(f"{tries.top}/u.r65", translated(user_))
        if tries.ran("ld65", "-C", "l.cfg", "-o", "cc65.bin", "u.o", path).returncode == 0:
            linked += 1
            ran = tries.ran(tries.program, "ld65", "-C", "l.cfg", "-o", "bin65.bin", "u.r65", name)
            if ran.returncode or read(f"{tries.top}/cc65.bin") != read(f"{tries.top}/bin65.bin"):
                wrong.append((used, ran.stderr))
    print(f"{name}: {linked} programs that use it")
    tries.check(f"{name}: programs that use it", linked > 3 and not wrong, (linked, wrong[:3]))


def example(tries):
    """The example's script."""
    shutil.copytree(f"{pages.ROOT}/example/convert", f"{tries.top}/example/convert")
    shutil.copy(f"{pages.ROOT}/example/convert.sh", f"{tries.top}/example")
    how = {**os.environ, "WORK65": WORK65}
    ran = subprocess.run(["sh", f"{tries.top}/example/convert.sh", tries.program],
                         capture_output=True, text=True, env=how, check=False)
    is_so = ran.stdout.endswith("squares.prg is the image that cc65 makes.\n")
    tries.check("the example", ran.returncode == 0 and is_so, ran)


def nothing(tries):
    """Says that cc65 isn't there."""
    print("cc65 isn't here: nothing is compared with its tools")


PARTS = (beside_od65, places, expressions, ranges, bits, sources, whole_libraries, example)
if __name__ == "__main__":
    run_parts(PARTS if all(map(shutil.which, TOOLS)) else (nothing,))
