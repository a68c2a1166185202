#!/usr/bin/env python3
"""Tries the translation of objects and libraries of cc65's tools without cc65: objects that these tests make, translated and
linked, beside bytes by hand; messages in full; damaged files; the cache; `work65 convert`. If cc65 is installed, objects and
members of its own are damaged, too.

usage: translating.py BIN65 [all]. With `all`, ten times as many files are damaged. The last line is 'N passed, M failed'."""
import hashlib
import os
import random
import re
import resource
import subprocess
import sys
import time

import pages
from made_objects import made_library, made_object
from translations import AND, LIBRARIES, provider, random_expression, read, run_parts
from translations import translated, user, write
from work65.problem import Problem
from work65.translating import cc65_objects, libraries, translation
from work65.translating.r65_libraries import names_of, write_library

# What FORMATS shows as an object of 53 bytes, but line 7: files, imports, a section, a literal, a
# value.
BY_HAND = bytes.fromhex("""
    52 36 35 6F 02  09 05 00 69 2E 69 6E 63  01 01 00 76  02 09 00 02 00 00 00 00 43 4F 44 45  03 01 00 EA
    05 0E 00 00 00 00 00 00 07 00 00 00 02 00 00 00 00  08 00 00""")
# Fragments of CODE at $8000 behind two bytes, and the bytes of the image, by hand: imports are
# first = $8005, second = BSS, third = $1234.
IMAGES = {
    "word": ((2, False, ("import", 2)), "34 12"),
    "three bytes": ((3, False, (0x01, ("import", 2), 0x560000)), "34 12 56"),
    "four bytes": ((4, False, (0x02, ("import", 2), 0x1235)), None),
    "negative in four bytes": ((4, True, (0x02, ("import", 2), 0x1235)), "FF FF FF FF"),
    "negative in three bytes": ((3, True, (0x02, 0, ("import", 2))), "CC ED FF"),
    "negative in two bytes": ((2, True, (0x02, 0, ("import", 2))), "CC ED"),
    "negative in one byte": ((1, True, (0x02, ("import", 2), 0x1236)), "FE"),
    "too small for one byte": ((1, True, (0x02, ("import", 2), 0x1234 + 129)), None),
    "too great for three bytes": ((3, False, (0x09, ("import", 2), 12)), None),
    "swapped": ((2, False, (0x43, ("import", 2))), "12 34"),
    "the greater": ((2, False, (0x14, ("import", 2), 0x1111)), "34 12"),
    "the lesser": ((2, False, (0x15, ("import", 2), 0x1111)), "11 11"),
    "the fourth byte": ((1, False, (0x4B, (0x09, ("import", 2), 16))), "12"),
    "the higher word": ((2, False, (0x4D, (0x09, ("import", 2), 8))), "12 00"),
    "a far address": ((3, False, (0x4E, (0x09, ("import", 2), 16))), "00 00 34"),
    "an exported number has no sign": ((4, False, ("import", 3)), "FE FF FF FF"),
    "short-circuited": ((1, False, (0x12, 1, (0x04, 1, 0))), "01"),
    "a division by zero": ((1, False, (0x04, 1, 0)), None),
}


def by_hand(tries):
    """What has to come of objects is known without cc65."""
    small = made_object([("CODE", 1, [b"\xEA", (1, False, ("import", 0))])], ["v"], source="i.inc")
    tries.check("an object by hand", translated(small) == BY_HAND)
    twice = made_object([("CODE", 1, [(2, False, ("import", 1)), b"", b"a", b"b",
                                      (2, False, 0x6463)])], ["v", "v"])
    wanted = bytes.fromhex("0101007602090006000000") + b"\0CODE" + bytes.fromhex("050E00010000000007000000020000000003040061626364080000")
    tries.check("a name imported twice", translated(twice).endswith(wanted))
    for name, (fragment, wanted) in IMAGES.items():
        found = tries.by_bin65((user([b"()", fragment]), provider()))
        at = found[2 : 2 + fragment[0]] if isinstance(found, bytes) else None
        tries.check(f"an image by hand: {name}",
                    at == (None if wanted is None else bytes.fromhex(wanted)), found[:60])


def greatest(tries):
    """The longest form, of 255 nodes: bin65 takes it. One node more is refused, also where it is a
    part that is written twice."""
    tree = ("import", 2)
    for _ in range(127):
        tree = (0x08, tree, ("import", 2))
    found = tries.by_bin65((user([(2, False, tree)]), provider()))
    tries.check("255 nodes", found[:2] == b"\x34\x12", found)
    greatest_of_many = ("import", 2)
    for _ in range(99):
        greatest_of_many = (0x14, greatest_of_many, 1)
    for name, more in {"256 nodes": (0x42, tree), "99 .max in each other": greatest_of_many,
                       "255 nodes, twice": (0x14, tree, 1),
                       "256 nodes, twice": (0x43, (0x42, tree))}.items():
        found = tries.by_bin65((user([(2, False, more)]), provider()))
        why = "an expression of more than 255 numbers, names and operations"
        tries.check(name, found == f"0.o: made.s:7: {why}", found)


def assertions(tries):
    """Assertions that only the linker can decide: true and false ones of each kind."""
    for action, kind in enumerate(("warning", "error", "ldwarning", "lderror")):
        for wanted in (0x1234, 0x1235):
            assertion = ((0x0B, ("import", 2), wanted), action, f"a text ({kind})")
            found = tries.by_bin65((user([b"x"], [assertion]), provider()))
            if wanted == 0x1235 and action & 1:
                is_so = found == f"0.r65:made.s:7: Error: a text ({kind})\n"
            else:
                is_so = found[:1] == b"x"
            tries.check(f"{kind}: {wanted:X}", is_so, found)


def facts(tries):
    """What a link decides about an object."""
    sections = [("CODE", 1, [b"a", (1, False, (0x45, ("section", 1)))]), ("NULL", 1, []),
                ("DATA", 8, []), ("BSS", 1, [])]
    data = made_object(sections, ["b", "a"], [("x", 1, ()), ("y", ("section", 3), ())])
    asked = []

    def bank_of(expression):
        asked.append(expression)
        return 7

    all_ = translation.LinkFacts({"x"}, ("a", "c"), bank_of, False)
    for name, wanted in {"some": (all_, [b"y"], [b"b", b"a", b"c"], ["CODE", "DATA", "BSS"]),
                         "none": (translation.LinkFacts(bank_of=bank_of), [b"x", b"y"],
                                  [b"b", b"a"], ["CODE", "NULL", "DATA", "BSS"])}.items():
        found = translation.translated(cc65_objects.read_object(data, "m.o"), wanted[0])
        segments = [found[it.start() + 8 : it.end()].decode() for it in re.finditer(rb"\x02..(.{4}[\x00\x03])(CODE|NULL|DATA|BSS)", found, re.S)]
        is_so = (*names_of(found), segments) == wanted[1:] and b"\x03\x02\x00a\x07" in found
        tries.check(f"facts: {name}", is_so, (names_of(found), segments))
    tries.check("facts: the bank's expression", asked == [cc65_objects.SectionIndex(1)] * 2, asked)


def said(read, *words):
    """The message on a file."""
    try:
        read(*words)
        return ""
    except Problem as problem:
        return str(problem)


def nested(depth):
    """An expression of so many operations in each other, that is the start of section 0."""
    found = ("section", 0)
    for _ in range(depth):
        found = (0x01, found, 0)
    return found


def messages(tries):
    """Files that can't be read or translated: each message in full."""
    whole, library = user([b"abc", (2, False, ("import", 0))]), made_library([("a.o", provider())])
    damaged = "can't be read as a file of cc65's tools: "
    reads = {
        "": (b"", f"{damaged}it is cut short"),
        "text": (b"a text that is longer than a head" * 9, f"{damaged}it isn't an object"),
        "a version": (whole[:4] + b"\x12" + whole[5:],
                      f"{damaged}its version is 18; only objects of version 17 can be read"),
        "cut": (whole[:-1], f"{damaged}it is cut short"),
        "library": (library * 9, f"{damaged}it isn't an object"),
        "a deep expression": (made_object([("CODE", 1, [])], (), [("deep", nested(301), ())]),
                              f"{damaged}an expression is nested over 300 deep"),
    }
    for name, (data, wanted) in reads.items():
        found = said(cc65_objects.read_object, data, "x.o")
        tries.check(f"message: {name}", found == f"x.o: {wanted}", found)
    for name, data, wanted in (("overlapping members", library[:-19] + b"\x04" + library[-18:] * 4,
                                "its members overlap"),
                               ("a library's version", library[:4] + b"\x0e" + library[5:],
                                "its version is 14; only libraries of version 13 can be read"),
                               ("a cut library", library[:-1], "it is cut short"),
                               ("no library", whole, "it isn't a library")):
        found = said(cc65_objects.read_library, data, "x.lib")
        tries.check(f"message: {name}", found == f"x.lib: {damaged}{wanted}", found)
    deep = made_object([("CODE", 1, [])], (), [("deep", nested(300), ())])
    another = made_object([("CODE", 1, [b"abc"])])
    another = another.replace(b"\x03\x01\x02\x01\x00\x03abc", b"\x04\x01\x02\x01\x00\x03abc")
    found = said(translation.translated, cc65_objects.read_object(another, "x.o"))
    tries.check("message: a section's size", found == f"x.o: {damaged}a section has another size",
                found)
    tries.check("a deep expression", b"deep" in translated(deep))
    names = {
        "an alignment": ([("CODE", 3, [])], [], [],
                         "segment CODE has the alignment 3, no power of two up to 32768"),
        "a great alignment": ([("CODE", 65536, [])], [], [],
                              "segment CODE has the alignment 65536, no power of two up to 32768"),
        "a long name": ([], ["n" * 256], [],
                        f"a name with more than 255 bytes or with other bytes than 21 to 7E: '{'n' * 40}'"),
        "a name with a blank": ([], ["a b"], [],
                                "a name with more than 255 bytes or with other bytes than 21 to 7E: 'a b'"),
        "a name with a control byte": ([("A\n", 1, [b"a"])], [], [],
                                       "a name with more than 255 bytes or with other bytes than 21 to 7E: 'A\\n'"),
        "a segment twice": ([("CODE", 1, []), ("CODE", 1, [])], [], [],
                            "a second section of segment CODE"),
        "a bank": ([("CODE", 1, [(1, False, (0x45, ("section", 0)))])], [], [],
                   "made.s:7: a .bank has a value only in a link"),
        "a division": ([("CODE", 1, [(1, False, (0x05, 1, 0))])], [], [],
                       "made.s:7: a division by zero"),
        "a shift": ([("CODE", 1, [(1, False, (0x09, 1, 64))])], [], [],
                    "made.s:7: a shift by less than 0 or more than 63"),
        "a range": ([("CODE", 1, [(1, False, 256)])], [], [],
                    "made.s:7: a value is out of range: 256"),
        "an operation": ([("CODE", 1, [(1, False, (0x46, 1))])], [], [],
                         "made.s:7: an unknown operation: 46"),
        "an assertion": ([], [], [(0, 3, "too long")], "made.s:7: an assertion fails: too long"),
        "a great section": ([("CODE", 1, [("fill", 16777217)])], [], [],
                            "segment CODE has more than 16777216 bytes"),
    }
    for name, (sections, imports, assertions, wanted) in names.items():
        obj = cc65_objects.read_object(made_object(sections, imports, (), assertions), "x.o")
        found = said(translation.translated, obj)
        tries.check(f"message: {name}", found == f"x.o: {wanted}", found)


def real_objects(tries):
    """Objects for tests: made ones, and members of a library of cc65's where it is there."""
    chance = random.Random(5)
    trees = []
    for width in (1, 2, 3, 4) * 3:
        trees.append((width, width == 3, (AND, random_expression(chance, 3), 0x7F)))
    found = [provider(), user([b"abc", *trees, ("fill", 9)], [(("import", 0), 1, "text")])]
    if tries.has_cc65:
        pages.put(f"{tries.top}/g.s", SOURCE)
        tries.ran("ca65", "-g", "g.s", "-o", "g.o")
        members = cc65_objects.read_library(read(f"{LIBRARIES}/c64.lib"), "c64.lib")
        names = ("crt0.o", "cgetc.o", "itoa.o", "irq.o", "zerobss.o")
        found += [read(f"{tries.top}/g.o"), *(it.data for it in members if it.name in names)]
    return found


SOURCE = """ .import first, second, third
 .export start
 .macro twice what
 .word what, what + 1
 .endmacro
 .code
start: lda first
 ldx #<second
 twice first
 .byte .hibyte(second), .bankbyte(start)
 .dword third
 .faraddr start
 .rodata
 .align 4
 .res 3
 .assert third > 3, lderror, "third"
 .zeropage
 .res 2
"""


def mutated(data, chance):
    """A changed copy: bits, bytes, numbers, parts left out, put in or doubled, an end cut off."""
    found = bytearray(data)
    for _ in range(chance.choice((1, 1, 1, 2, 5))):
        at, kind = chance.randrange(len(found)), chance.randrange(7)
        if kind == 0:
            found[at] ^= 1 << chance.randrange(8)
        elif kind == 1:
            found[at] = chance.choice((0, 1, 0x7F, 0x80, 0xFF, chance.randrange(256)))
        elif kind == 2:
            found[at : at + 4] = chance.choice((0, 1, 0x7FFFFFFF, 0xFFFFFFFF, len(data),
                                                chance.randrange(1 << 32))).to_bytes(4, "little")
        elif kind == 3:
            del found[at : at + chance.randrange(1, 9)]
        elif kind == 4:
            found[at:at] = bytes(chance.randrange(256) for _ in range(chance.randrange(1, 5)))
        elif kind == 5:
            found[at:at] = found[at : at + chance.randrange(1, 99)]
        else:
            del found[at:]
        if not found:
            break
    return bytes(found)


def mutants(tries):
    """Damaged objects and libraries: a message or a translation that bin65 reads, and nothing else,
    in no time."""
    chance, count, kept, slowest, wrong = random.Random(7), 100_000 if tries.is_all else 10_000, [], 0.0, []
    bases = real_objects(tries)
    library = made_library([(f"{at}.o", it) for at, it in enumerate(bases[:3])])
    for at in range(count):
        is_library = at % 10 == 0
        data = mutated(library if is_library else chance.choice(bases), chance)
        begun = time.process_time()
        try:
            members = [cc65_objects.Member("x.o", data, "x.lib")]
            if is_library:
                members = cc65_objects.read_library(data, "x.lib")
            kept += [translation.translated(it.object()) for it in members]
        except Problem as problem:
            if "\n" in str(problem) or not str(problem).startswith("x.lib"):
                wrong.append(str(problem))
        except Exception as error:
            wrong.append((at, repr(error)))
        slowest = max(slowest, time.process_time() - begun)
    tries.check(f"{count} damaged files", not wrong and slowest < 2, (slowest, wrong[:5]))
    write(f"{tries.top}/kept.lib", write_library([(f"{at}.o", it) for at, it in enumerate(kept)],
                                                 "kept.lib"))
    ran = tries.ran(tries.program, "ar65", "t", "kept.lib")
    tries.check("bin65 reads what is translated",
                ran.returncode == 0 and len(ran.stdout.split()) == len(kept) > count // 20,
                ran.stderr)
    print(f"{len(kept)} of {count} damaged files translate; slowest {slowest:.3f} s")


def cache(tries):
    """Cached translations: twice, damaged, at once, in a folder that can't be written, too many."""
    folder = f"{tries.top}/cache/work65"
    members = [(f"m{at}.o", user([bytes(range(256)) * 9,
                                  (2, False, ("import", 0))])) for at in range(20)]
    data = made_library(members)
    program = f"import sys; sys.path.insert(0, {pages.ROOT + '/workbench'!r}); sys.dont_write_bytecode = True\n" + (
        "from work65.translating.libraries import library_of\nimport hashlib\n"
        "print(hashlib.sha256(repr(library_of(open(sys.argv[1], 'rb').read(), 'x.lib')).encode()).hexdigest())")
    write(f"{tries.top}/x.lib", data)
    write(f"{tries.top}/small.lib", made_library(members[:1]))

    def started(name="x.lib", limit=None, **more):
        how = {**os.environ, "XDG_CACHE_HOME": f"{tries.top}/cache", **more}
        return subprocess.Popen([sys.executable, "-c", program, name], cwd=tries.top,
                                stdout=subprocess.PIPE, stderr=subprocess.STDOUT, env=how,
                                preexec_fn=limit)

    def told(*running):
        return {it.communicate()[0] for it in running}

    known = repr(libraries.library_of(data, "x.lib")).encode()
    wanted = hashlib.sha256(known).hexdigest().encode() + b"\n"
    tries.check("four at once",
                told(*(started() for _ in range(4))) == {wanted} and len(os.listdir(folder)) == 1,
                os.listdir(folder))
    entry = f"{folder}/{os.listdir(folder)[0]}"
    good = read(entry)
    for name, changed in {"as written": good, "cut": good[:-1], "empty": b"",
                          "a changed byte": good[:50] + b"x" + good[51:]}.items():
        write(entry, changed)
        tries.check(f"an entry: {name}", told(started()) == {wanted} and read(entry) == good)
    full = started(limit=lambda: resource.setrlimit(resource.RLIMIT_FSIZE, (1000, 1000)),
                   XDG_CACHE_HOME=f"{tries.top}/cache2")
    tries.check("a full disk",
                told(full) == {wanted} and os.listdir(f"{tries.top}/cache2/work65") == [])
    write(f"{tries.top}/file", b"")
    tries.check("no folder", told(started(XDG_CACHE_HOME=f"{tries.top}/file")) == {wanted})
    is_told = told(started(XDG_CACHE_HOME="relative", HOME="nowhere")) == {wanted}
    tries.check("no home", is_told and not os.path.exists(f"{tries.top}/relative"))
    for at in range(99):
        write(f"{folder}/old{at}", b"")
        os.utime(f"{folder}/old{at}", (at, at))
    os.remove(entry)
    told(started(), started("small.lib"))
    left = os.listdir(folder)
    tries.check("the oldest go",
                len(left) == 64 and os.path.basename(entry) in left and "old98" in left and "old0" not in left, len(left))


def convert(tries):
    """The subcommand: files, folders, messages, and that nothing is written if something is
    wrong."""
    os.makedirs(f"{tries.top}/a b")
    for name, data in {"p.o": provider(), "ü.o": user([b"abc", (2, False, ("import", 0))]),
                       "l.lib": made_library([("p.o", provider())]),
                       "two.lib": made_library([("p.o", provider())] * 2),
                       "name.lib": made_library([("a/b", provider())]), "bad.o": provider()[:-1],
                       "bank.o": made_object([("CODE", 1, [(1, False, (0x45, ("section", 0)))])]),
                       "t.o": made_object((), (), [("start", 5, [(0, 7), (3, 7)])]),
                       "new.o": BY_HAND}.items():
        write(f"{tries.top}/a b/{name}", data)
    rows = {
        "one": (("a b/p.o", "-o", "one.o"), 0, "", ["one.o"]),
        "a folder": (("a b/p.o", "a b/ü.o", "a b/l.lib", "-o", "out/"), 0, "",
                     ["out/l.lib", "out/p.o", "out/ü.o"]),
        "the folder here": (("a b/p.o",), 0, "", ["p.o"]),
        "a damaged one": (("a b/p.o", "a b/bad.o", "-o", "out2/"), 1,
                          "a b/bad.o: can't be read as a file of cc65's tools: it is cut short",
                          []),
        "a bank": (("a b/bank.o", "-o", "bank"), 1,
                   "a b/bank.o: made.s:7: a .bank has a value only in a link", []),
        "bin65's own": (("a b/new.o", "-o", "new"), 1,
                        "a b/new.o: already an object or a library of bin65's", []),
        "a text": (("m.cfg", "-o", "text"), 1, "m.cfg: no object and no library of cc65's", []),
        "no file": (("none.o", "-o", "none"), 1, "none.o: No such file or directory", []),
        "over itself": (("a b/p.o", "-o", "a b"), 2,
                        "a b/p.o: it would be overwritten; name another file or folder by -o", []),
        "two to one": (("a b/p.o", "a b/ü.o", "-o", "x"), 2,
                       "x: no folder, and there are 2 files to convert", []),
        "two of one name": (("a b/p.o", "one.o", "a b/../a b/p.o", "-o", "out3/"), 1,
                            "one.o: already an object or a library of bin65's", []),
        "twice": (("a b/p.o", "a b/p.o", "-o", "out3/"), 2,
                  "out3/p.o: two files would be written there", []),
        "a full disk": (("a b/p.o", "-o", "/dev/full"), 1, "/dev/full: No space left on device",
                        []),
        "two members of one name": (("a b/two.lib", "-o", "two"), 1,
                                    "a b/two.lib: a second member p.o", []),
        "a member's name": (("a b/name.lib", "-o", "two"), 1,
                            "a b/name.lib: a member has a name that bin65's libraries can't hold: 'a/b'", []),
        "tables": (("a b/t.o", "-o", "tables"), 0,
                   "a b/t.o: the linker of bin65 makes no tables of routines: start (constructor), start (table 3)", ["tables"]),
    }
    for name, (words, status, message, written) in rows.items():
        before = all_files(tries.top)
        ran = tries.work65("convert", *words)
        said_ = f"work65: {message}\n" if message else ""
        is_so = (ran.returncode, ran.stdout, ran.stderr,
                 sorted(all_files(tries.top) - before)) == (status, "", said_, sorted(written))
        tries.check(f"convert: {name}", is_so, (ran, all_files(tries.top) - before))
    ran = tries.ran(tries.program, "ld65", "-C", "m.cfg", "-o", "converted.bin", "out/ü.o",
                    "out/l.lib")
    tries.check("converted files link",
                ran.returncode == 0 and b"abc\x0A\x80" in read(f"{tries.top}/converted.bin"), ran)


def all_files(top):
    """The files in a folder and below, without those of the cache."""
    return {os.path.relpath(f"{folder}/{it}", top) for folder, _,
            names in os.walk(top) for it in names if "/cache" not in folder}


if __name__ == "__main__":
    run_parts((by_hand, greatest, assertions, facts, messages, cache, convert, mutants))
