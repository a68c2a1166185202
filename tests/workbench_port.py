#!/usr/bin/env python3
"""Tests `work65 port`: it converts sources with common idioms, the pairs of docs/MIGRATING.md and cc65's own scripts. The result has the
image that cc65's tools make of the original source, or the construct that can't be converted is reported.

usage: workbench_port.py BIN65. The last line is 'N passed, M failed'."""
import contextlib
import io
import os
import random
import re
import shutil
import subprocess
import sys
import tempfile
import time

import pages
import results
import cc65_files

sys.path.insert(0, f"{pages.ROOT}/workbench")
from work65.main import main as work65  # noqa: E402

WORK65 = f"{pages.ROOT}/workbench/work65.sh"
CASES = f"{pages.ROOT}/tests/workbench/sources.txt"
SCRIPT = """MEMORY {
    Z: file = "", start = $0002, size = $FE;
    M: file = %O, start = $C000, size = $3000;
    R: file = "", start = $0200, size = $1000;
}
SEGMENTS {
    ZEROPAGE: load = Z, type = zp, optional = yes;
    EXTZP: load = Z, type = zp, optional = yes;
    CODE: load = M, type = rw;
    RODATA: load = M, type = rw, optional = yes;
    DATA: load = M, type = rw, optional = yes;
    BSS: load = R, type = bss, optional = yes;
}
SYMBOLS {
    pointer: type = export, value = $10;
    extra: type = export, value = $12;
    table: type = export, value = $1234;
    print: type = export, value = $1240;
    music: type = export, value = $1250;
    chrout: type = export, value = $FFD2;
    limit: type = export, value = 9;
}
"""
# Sources of which a place can't be brought over: what is said of it names this word.
REFUSED = {
    "game-exports": "far", "game-processor": "lax", "game-enums": ".if",
    "other-shifts": ">>", "mix-org": ".org", "mix-65c02": '"65C02"', "mix-scope-used": "n", "mix-align": "3",
}
MUTATIONS, MIXED = 150, 80
ALONE = "compared: each source alone at two placements: the same 1 of 1\n"


class Tries:
    """Counts of passed and failed checks."""

    def __init__(self, program):
        self.program = os.environ["BIN65"] = os.path.abspath(program)
        self.passed = self.failed = 0

    def check(self, name, is_so, found=""):
        self.passed, self.failed = self.passed + bool(is_so), self.failed + (not is_so)
        if not is_so:
            print(f"{name}: {found}")

    def inside(self, *words, folder):
        """Runs work65 within this process. Returns its status and its output."""
        said, here = io.TextIOWrapper(io.BytesIO(), encoding="utf-8", write_through=True), os.getcwd()
        os.chdir(folder)
        try:
            with contextlib.redirect_stdout(said), contextlib.redirect_stderr(said):
                status = work65(list(words))
        finally:
            os.chdir(here)
        return subprocess.CompletedProcess(words, status, said.buffer.getvalue().decode("utf-8", "replace"), "")

    def work65(self, *words, folder):
        how = {**os.environ, "BIN65": self.program, "TMPDIR": folder}
        return subprocess.run(["sh", WORK65, *words], cwd=folder, env=how, capture_output=True, text=True, check=False)


def image(assembler, linker, source, folder, script="l.cfg"):
    """The image of a source, or what was said."""
    for words in ([*assembler, "-o", "a.o", source], [*linker, "-C", script, "-o", "a.bin", "a.o"]):
        ran = subprocess.run(words, cwd=folder, capture_output=True, text=True, check=False)
        if ran.returncode:
            return ran.stderr
    with open(f"{folder}/a.bin", "rb") as it:
        return it.read()


def cases():
    """The sources: name, target, text."""
    with open(CASES, encoding="utf-8") as it:
        parts = re.split(r"^=== (\S+) (\S+)\n", it.read(), flags=re.M)
    return list(zip(parts[1::3], parts[2::3], parts[3::3]))


def ported(tries, name, target, text, has_cc65):
    """Ports one source, and compares the image with that of cc65's tools. One that includes a file of cc65's is left out where
    that isn't there."""
    if ".include " in text and not cc65_files.is_there():
        print(f"cc65 isn't installed: {name} isn't tried, which includes a file of its own")
        return
    with tempfile.TemporaryDirectory() as folder:
        for file, content in (("a.s", text), ("l.cfg", SCRIPT)):
            pages.put(f"{folder}/{file}", content)
        target_words = ["--target", target] if target else []
        ran = tries.inside("port", "a.s", "-o", "out", *target_words, folder=folder)
        if name in REFUSED:
            tries.check(f"{name} is said", ran.returncode == 1 and f": {REFUSED[name]}: " in ran.stdout, ran.stdout + ran.stderr)
            return
        shutil.copy(f"{folder}/l.cfg", f"{folder}/out/l.cfg")
        ours = image([tries.program, "ca65"], [tries.program, "ld65"], "a.s", f"{folder}/out")
        if ran.returncode or not isinstance(ours, bytes):
            tries.check(name, False, f"{ran.stdout}{ran.stderr}{ours if not isinstance(ours, bytes) else ''}")
            return
        if has_cc65:
            theirs = image(["ca65", *(["-t", target] if target else [])], ["ld65"], "a.s", folder)
            tries.check(name, theirs == ours, f"cc65 {theirs if isinstance(theirs, str) else theirs.hex(' ')}, bin65 {ours.hex(' ')}")
            tries.check(f"{name}, what was compared", ran.stdout.startswith(ALONE.rstrip()), ran.stdout)
        if has_cc65 and name.startswith("kept-"):
            with open(f"{folder}/out/a.s", encoding="utf-8") as it:
                copy = it.read()
            tries.check(f"{name}, to the byte", copy == text, copy)
        left = tries.inside("check", "out", folder=folder)
        # Only port knows the lines that a condition on the processor skips
        tries.check(f"{name}, nothing left", left.returncode == 0 or name == "apple-cpu", left.stdout)


def pairs(tries, has_cc65):
    """Tests that each first block of a pair of MIGRATING gives its image, or is reported."""
    text = pages.read("docs/MIGRATING.md").split("\n### A row with `align`")[0]
    rows = re.findall(r"^\| (`[^|]+`) \| `[^|]+` \| `[0-9A-F ]+` \|$", text, re.M)
    found = re.findall(r"^```cc65\n(.*?)^```$", text, re.M | re.S)
    found += ["".join(f"{it}\n" for it in re.findall(r"`([^`]+)`", row)) for row in rows]
    for number, before in enumerate(found):
        with tempfile.TemporaryDirectory() as folder:
            for file, content in (("a.s", before), ("l.cfg", SCRIPT)):
                pages.put(f"{folder}/{file}", content)
            ran = tries.inside("port", "a.s", "-o", "out", folder=folder)
            shutil.copy(f"{folder}/l.cfg", f"{folder}/out/l.cfg")
            ours = image([tries.program, "ca65"], [tries.program, "ld65"], "a.s", f"{folder}/out")
            theirs = image(["ca65"], ["ld65"], "a.s", folder) if has_cc65 else ours
            if not isinstance(theirs, bytes):
                continue
            good = ours == theirs if ran.returncode == 0 else ": " in ran.stdout
            tries.check(f"pair {number + 1} of MIGRATING", good, f"{before}{ran.stdout}{ours!r}")


def scripts(tries):
    """Tests that bin65 accepts cc65's own scripts after `port`, or that the remaining constructs are reported."""
    with tempfile.TemporaryDirectory() as folder:
        ran = tries.work65("port", cc65_files.SCRIPTS, "-o", "out", "--no-verify", folder=folder)
        said = set(re.findall(r"([\w-]+\.cfg):\d+:", ran.stdout))
        brought = re.search(r"converts (\d+) of them; the other (\d+)", pages.read("docs/MIGRATING.md"))
        counts = (len(os.listdir(cc65_files.SCRIPTS)) - len(said), len(said))
        tries.check("the page's numbers of scripts", counts == (int(brought[1]), int(brought[2])), counts)
        for name in sorted(set(os.listdir(f"{folder}/out")) - {".work65"}):
            link = subprocess.run([tries.program, "ld65", "-C", f"{folder}/out/{name}", "-o", "/dev/null", "/dev/null"],
                                  capture_output=True, text=True, check=False)
            is_read = not link.stderr.startswith(f"{folder}/out/{name}:")
            tries.check(f"script {name}", is_read != (name in said), link.stderr)


# A program of several files with cc65's own script: its includes lie in a folder, and one of them is cc65's.
TREE = {
    "src/main.s": """.feature labels_without_colons
.include "nes.inc"
.include "game.inc"
.macpack longbranch
.import wait, score
.export reset: absolute
.segment "HEADER"
        .byte   "NES", $1A, 2, 1, 0, 0
.segment "STARTUP"
reset   sei
        ldx     #$FF
        txs
@1      bit     PPU_STATUS
        bpl     @1
        jsr     wait
        jeq     reset
        lda     #Mode::PLAY
        sta     hero + Actor::mode
        jmp     reset
.segment "VECTORS"
        .addr   0, reset, 0
.segment "CHARS"
        .incbin "tiles.chr", 0, -1
.segment "BSS"
hero    .tag    Actor
.segment "CODE"
.segment "RODATA"
        .byte   .sizeof(Actor), SPEED
        .incbin "tiles.chr", 2
.segment "DATA"
        .word   score
.segment "ZEROPAGE"
        .res    1
""",
    "src/lib/wait.s": """.include "../game.inc"
.export wait, score : abs = 5
.proc wait
        ldx     #SPEED
@1:     dex
        bne     @1
        lda     #Mode::OVER
        rts
.endproc
""",
    "src/game.inc": """.ifndef GAME_INC
GAME_INC = 1
.define SPEED 3
.enum Mode
        TITLE
        PLAY
        OVER
.endenum
.struct Actor
        place   .word
        mode    .byte
.endstruct
.endif
""",
    "src/tiles.chr": "0123456789",
}


def tree(tries):
    """A program of several files is brought over with cc65's script, and --verify builds both and finds the images the same, or
    says that they differ."""
    with tempfile.TemporaryDirectory() as folder:
        for name, text in TREE.items():
            os.makedirs(os.path.dirname(f"{folder}/{name}"), exist_ok=True)
            pages.put(f"{folder}/{name}", text)
        shutil.copy(f"{cc65_files.SCRIPTS}/nes.cfg", f"{folder}/src/nes.cfg")
        before = {it: pages.read(os.path.relpath(f"{folder}/{it}", pages.ROOT)) for it in TREE}
        ran = tries.work65("port", "src", "-o", "out", "--target", "nes", folder=folder)
        good = "compared: the program by nes.cfg: the same (the image, 40976 bytes)\n"
        tries.check("a tree", (ran.returncode, ran.stdout, ran.stderr) == (0, good, ""), ran.stdout + ran.stderr)
        after = {it: pages.read(os.path.relpath(f"{folder}/{it}", pages.ROOT)) for it in TREE}
        tries.check("a tree stays as it was", before == after)
        for it in ("src/main.s", "src/lib/wait.s"):
            out = f"{folder}/out/{it[4:]}"
            ran = subprocess.run([tries.program, "ca65", "-o", f"{folder}/{os.path.basename(it)}.o", out], capture_output=True, text=True, check=False)
            tries.check(f"{it} needs no options", ran.returncode == 0, ran.stderr)
        # An image that differs: .ifdef in a scope that has used the name, after a macro that port doesn't look into.
        pages.put(f"{folder}/src/lib/wait.s", TREE["src/lib/wait.s"] + ".macro ask name\n.ifdef name\n nop\n.endif\n.endmacro\nn = 5\n.proc p\n lda n\n ask n\n.endproc\n")
        ran = tries.work65("port", "src", "-o", "out2", "--target", "nes", folder=folder)
        good = "src/lib/wait.s: the image differs from byte 10 of 10 and 11 on (cc65 and bin65: no byte and EA): "
        tries.check("a tree whose image differs", ran.returncode == 1 and good in ran.stdout, ran.stdout + ran.stderr)
        left = sorted(os.listdir(folder))
        tries.check("nothing but the copies", left == ["main.s.o", "out", "out2", "src", "wait.s.o"], left)


TOP = re.compile(r"^\s*\.(feature|macpack|linecont|setcpu|include)", re.I)


def wrapped(chance, body, name):
    """A source within a scope, a procedure, a macro that is called, a repeat or a condition, or as it is."""
    kind = chance.choice(("", "scope", "proc", "if") if ".macro" in body else ("", "scope", "proc", "if", "macro", "repeat"))
    if kind == "macro":
        return f".macro {name}\n{body}\n.endmacro\n {name}\n"
    if kind == "if":
        return f".if 1\n{body}\n.else\n nothing here\n.endif\n"
    words = {"scope": f".scope {name}", "proc": f".proc {name}", "repeat": f".repeat 1, {name}"}
    return f"{words[kind]}\n{body}\n.end{kind}\n" if kind else f"{body}\n"


def mixed(tries):
    """Tests random sources, each within a block: the same image, or a reported construct."""
    chance, count = random.Random(6502), {"the same": 0, "said": 0}
    for number in range(MIXED):
        chosen = chance.sample(cases(), chance.randint(1, 3))
        target = chance.choice(chosen)[1]
        lines = [(at, it) for at, (_, _, text) in enumerate(chosen) for it in text.split("\n")]
        top = "".join(f"{it}\n" for it in dict.fromkeys(it.strip() for _, it in lines if TOP.match(it)))
        bodies = ["\n".join(it for at, it in lines if at == one and not TOP.match(it)) for one in range(len(chosen))]
        text = top + "".join(wrapped(chance, it, f"around_{number}_{at}") for at, it in enumerate(bodies))
        with tempfile.TemporaryDirectory() as folder:
            for file, content in (("a.s", text), ("l.cfg", SCRIPT)):
                pages.put(f"{folder}/{file}", content)
            theirs = image(["ca65", "-t", target], ["ld65"], "a.s", folder)
            if not isinstance(theirs, bytes):
                continue
            ran = tries.inside("port", "a.s", "-o", "out", "--target", target, folder=folder)
            shutil.copy(f"{folder}/l.cfg", f"{folder}/out/l.cfg")
            ours = image([tries.program, "ca65"], [tries.program, "ld65"], "a.s", f"{folder}/out")
            count["said" if ran.returncode else "the same"] += 1
            tries.check(f"mixture {number}", ours == theirs if ran.returncode == 0 else ": " in ran.stdout, f"{text}{ran.stdout}{ours!r}")
    print(f"port: of {MIXED} mixtures {count['the same']} give the same image, {count['said']} have a place that is said")


def examples(tries):
    """Tests that sources which bin65 accepts are unchanged."""
    with tempfile.TemporaryDirectory() as folder:
        shutil.copytree(f"{pages.ROOT}/example", f"{folder}/example", ignore=shutil.ignore_patterns("out", "second"))
        ran = tries.work65("port", "example", "-o", "out", "--no-verify", folder=folder)
        tries.check("the examples", ran.returncode == 0 and ran.stdout.startswith("not compared: --no-verify; "), ran.stdout)
        for top, _, names in os.walk(f"{folder}/out"):
            for name in set(names) - {".work65"}:
                file = os.path.relpath(f"{top}/{name}", f"{folder}/out")
                same = pages.read(f"example/{file}") == pages.read(os.path.relpath(f"{top}/{name}", pages.ROOT))
                tries.check(f"example/{file} stays", same)


def bad_input(tries):
    """A file that can't be read or written is reported in one line, and no file is left."""
    with tempfile.TemporaryDirectory() as folder:
        pages.put(f"{folder}/a.s", " nop\n")
        pages.put(f"{folder}/file", "")
        os.mkdir(f"{folder}/empty")
        with open(f"{folder}/b.s", "wb") as it:
            it.write(bytes(range(256)))
        for words in (("none.s", "-o", "out"), ("empty", "-o", "out"), ("a.s", "-o", "file"), ("a.s", "-o", "/proc/none/out")):
            ran = tries.work65("port", *words, folder=folder)
            good = ran.returncode == 1 and ran.stderr.startswith("work65: ") and ran.stderr.count("\n") == 1
            tries.check(f"port {' '.join(words)}", good, ran.stderr)
        ran = tries.work65("port", "a.s", folder=folder)
        tries.check("port without -o", ran.returncode == 2, ran.stderr)
        ran = tries.work65("port", "b.s", "-o", "out", folder=folder)
        tries.check("port of bytes that are no text", ran.returncode == 1 and "Traceback" not in ran.stderr, ran.stderr)
        left = sorted(os.listdir(folder))
        tries.check("nothing is left behind", left == ["a.s", "b.s", "empty", "file", "out"], left)


def copies(tries):
    """Hand edits in a copy stay; a copy is never made over its originals, nor of a copy."""
    with tempfile.TemporaryDirectory() as folder:
        os.makedirs(f"{folder}/src")
        pages.put(f"{folder}/src/a.s", " nop\n")
        os.mkdir(f"{folder}/out", 0o755)

        def port(name, status, said, *words):
            ran = tries.work65("port", *words, "--no-verify", folder=folder)
            tries.check(name, (ran.returncode, ran.stdout + ran.stderr) == (status, said), ran)

        last = "not compared: --no-verify; operands may have other sizes than with cc65\n"
        port("a copy", 0, last, "src", "-o", "out")
        tries.check("a folder keeps its mode", os.stat(f"{folder}/out").st_mode & 0o777 == 0o755)
        pages.put(f"{folder}/src/a.s", " iny\n")
        port("a copy once more", 0, last, "src", "-o", "out")
        pages.put(f"{folder}/out/a.s", " nop ; by hand\n")
        port("a copy with an edit", 1, "work65: out/a.s: changed since port wrote it; --force overwrites it\n", "src", "-o", "out")
        with open(f"{folder}/out/a.s", encoding="utf-8") as it:
            tries.check("the edit stays", it.read() == " nop ; by hand\n")
        port("a copy that is forced", 0, last, "src", "-o", "out", "--force")
        over = "the copy would overwrite the original\n"
        port("a folder into itself", 1, f"work65: src: {over}", "src", "-o", "src")
        port("a file over itself", 1, f"work65: src/a.s: {over}", "src/a.s", "-o", "src")
        port("a copy within", 0, last, "src", "-o", "src/one")
        port("a second copy within", 0, last, "src", "-o", "src/two")
        pages.put(f"{folder}/src/a.s", '.include "d.inc"\n .byte D\n')
        for place, number in (("src", 3), ("i", 4)):
            os.makedirs(f"{folder}/{place}", exist_ok=True)
            pages.put(f"{folder}/{place}/d.inc", f"D = {number}\n")
        port("a copy with a file", 0, last, "src/a.s", "-I", "i", "-o", "stale")
        os.remove(f"{folder}/src/d.inc")
        port("a copy without this file", 0, last, "src/a.s", "-I", "i", "-o", "stale")
        tries.check("a file of an earlier copy goes", not os.path.exists(f"{folder}/stale/d.inc"), os.listdir(f"{folder}/stale"))
        tries.check("a copy of no copy", sorted(os.listdir(f"{folder}/src/two")) == [".work65", "a.s"], os.listdir(f"{folder}/src/two"))


def names(tries, has_cc65):
    """Tests names outside ASCII, data in other folders, and deeply nested includes."""
    with tempfile.TemporaryDirectory() as folder:
        for name in ("src", "gfx", "deep"):
            os.makedirs(f"{folder}/{name}")
        pages.put(f"{folder}/\u00f6.inc", "N = 5\n")
        pages.put(f"{folder}/\u00e4.bin", "AB")
        pages.put(f"{folder}/gfx/t.chr", "CD")
        pages.put(f"{folder}/src/\u00fc.s", '.include "../\u00f6.inc"\n.incbin "../\u00e4.bin"\n.incbin "t.chr"\n.incbin "gfx/t.chr"\n .byte N\n')
        ran = tries.work65("port", "src", "-o", "out", "--bin-include-dir", "gfx", folder=folder)
        tries.check("names outside of ASCII", ran.returncode == 0 and (not has_cc65 or ran.stdout == ALONE), ran)
        ours = subprocess.run([tries.program, "ca65", "-o", "a.o", "\u00fc.s"], cwd=f"{folder}/out", capture_output=True, check=False)
        tries.check("the copy has all that it needs", ours.returncode == 0, ours)
        os.mkdir(f"{folder}/bytes")
        with open(os.fsencode(f"{folder}/bytes/") + b"\xe9.s", "wb") as it:
            it.write(b" .byte 1 ; \xff\n stz 1\n")
        how = {**os.environ, "BIN65": tries.program, "PYTHONIOENCODING": "utf-8:strict"}
        ran = subprocess.run(["sh", WORK65, "port", "bytes", "-o", "out4"], cwd=folder, env=how, capture_output=True, check=False)
        good = b"\xe9.s:1: $FF: cc65 takes" in ran.stdout and b"\xe9.s:2: stz: " in ran.stdout and not ran.stderr
        tries.check("a name that isn't UTF-8, and a byte that ends the file", ran.returncode == 1 and good, ran)
        for number in range(2000):
            pages.put(f"{folder}/deep/i{number}.inc", f'.include "i{number + 1}.inc"\n')
        pages.put(f"{folder}/deep/i2000.inc", " nop\n")
        pages.put(f"{folder}/deep/m.s", '.include "i0.inc"\n')
        ran = tries.work65("port", "deep/m.s", "-o", "out2", folder=folder)
        tries.check("2,000 files deep", ran.returncode in (0, 1) and not ran.stderr, ran.stderr[-500:])
        nested = ".if 1\n" * 3000 + " nop\n" + ".else\n.endif\n" * 3000
        pages.put(f"{folder}/nested.s", nested)
        begun = results.processor_seconds()
        ran = tries.work65("port", "nested.s", "-o", "out3", "--no-verify", folder=folder)
        tries.check("3,000 conditions deep", ran.returncode == 0 and results.processor_seconds() - begun < 10, ran)


# Lines that aren't assembled without a name that -D may give.
OTHER_NAMES = """.zeropage
n1: .res 1
.code
.proc o
 lda n1
.proc i
.ifdef FOO
 lda n1
 lda #0
 jmp i
 lda n1,x
.endif
.endproc
.endproc
"""


def other_names(tries):
    """Lines that aren't assembled are said: their sizes can't be measured."""
    with tempfile.TemporaryDirectory() as folder:
        pages.put(f"{folder}/a.s", OTHER_NAMES)
        for names, more in (((), "; not assembled here, so of unknown size: a.s:8 and 1 more lines"), (("-D", "FOO"), "")):
            ran = tries.inside("port", "a.s", "-o", "out", *names, folder=folder)
            tries.check(f"lines of another -D: {names}", (ran.returncode, ran.stdout) == (0, f"{ALONE.rstrip()}{more}\n"), ran)


def beside(tries):
    """A file that lies in the copy's folder takes part in the comparison."""
    with tempfile.TemporaryDirectory() as folder:
        for name, text in (("p/src/a.s", '.include "d.inc"\n .byte D\n'), ("p/i/d.inc", "D = 4\n"), ("out/src/d.inc", "D = 9\n")):
            os.makedirs(os.path.dirname(f"{folder}/{name}"), exist_ok=True)
            pages.put(f"{folder}/{name}", text)
        ran = tries.inside("port", "p", "-I", "p/i", "-o", "out", folder=folder)
        tries.check("a file beside the copy", ran.returncode == 1 and "(cc65 and bin65: 04 and 09)" in ran.stdout, ran)


def ended(tries):
    """A run that is ended leaves no file."""
    with tempfile.TemporaryDirectory() as folder:
        for name in ("tools", "temporary"):
            os.mkdir(f"{folder}/{name}")
        pages.put(f"{folder}/a.s", " nop\n")
        pages.put(f"{folder}/l.cfg", SCRIPT)
        pages.put(f"{folder}/tools/ca65", f"#!/bin/sh\n: > {folder}/here\nexec sleep 60\n")
        os.chmod(f"{folder}/tools/ca65", 0o755)
        how = {**os.environ, "PATH": f"{folder}/tools:{os.environ['PATH']}", "TMPDIR": f"{folder}/temporary"}
        for words in (("port", "a.s", "-o", "out"), ("second", "-C", "l.cfg", "a.s")):
            ran = subprocess.Popen(["sh", WORK65, *words], cwd=folder, env=how, stdout=subprocess.PIPE, stderr=subprocess.STDOUT)
            while not os.path.exists(f"{folder}/here") and ran.poll() is None:
                time.sleep(0.02)
            ran.terminate()
            said = ran.communicate()[0]
            os.remove(f"{folder}/here")
            left = os.listdir(f"{folder}/temporary"), sorted(os.listdir(folder))
            tries.check(f"{words[0]} that is ended", (said, left) == (b"", ([], ["a.s", "l.cfg", "temporary", "tools"])), (said, left))


def several_scripts(tries):
    """A program is compared by each script with which cc65 links it; if it links by none, an import whose sign counts is reported."""
    row = "MEMORY {{ M: start = ${}, size = $100; }}\nSEGMENTS {{ {}: load = M; }}\n"
    good = {"k.s": " .export k\nk = 5\n", "l.s": " .import k\n .byte k < 0\n"}
    below = {**good, "k.s": good["k.s"].replace("5", "-1")}
    linked = {"one.cfg": row.format("1000", "CODE"), "two.cfg": row.format("2000", "CODE")}
    others = {name: text.replace("CODE", "OTHER") for name, text in linked.items()}
    same = "compared: the program by one.cfg: the same (the image, 1 bytes); {}\n"
    sign, beyond = "cc65 imports a negative constant as a positive number", "cc65's linker takes a number from $80000000 as one below 0"
    importing = ".import k\n{}\n"
    for name, files, status, said in (
        ("two scripts", {**good, **linked}, 0, same.format("by two.cfg: the same (the image, 1 bytes)")),
        ("one script of two", {**good, **linked, "two.cfg": others["two.cfg"]}, 0, same.format("not by two.cfg: ld65 doesn't link it as a whole: ")[:-1]),
        ("two scripts, another image", {**below, **linked}, 1, "one.cfg: the image differs from byte 0 on"),
        ("two scripts that don't link", {**below, **others}, 1, sign), ("no script", below, 1, sign),
        *((f"a sign: {text!r}", {"k.s": exporter, "l.s": importing.format(text)}, 1, f"l.s:{line}: ") for exporter, text, line in (
            (below["k.s"], "m = k\n .byte m < 0", 3), (below["k.s"], ".define KK k\n .byte KK < 0", 3),
            (below["k.s"], ".macro is q\n .byte q < 0\n.endmacro\n is k", 3), (".scope s\nk = -1\n.export k\n.endscope\n", " .byte k < 0", 2),
            (" .export k\nl1: nop\nl2: nop\nk = l1 - l2\n", " .byte k < 0", 2),
            (" .export k\nk = 1 << 32\n", " .byte k > 0", 2))),
        *((f"a large number: {text!r}", {"l.s": importing.format(text)}, 1, f"l.s:{line}: ") for text, line in (
            ("d = k - $1000\n .byte (d & $FFFFFFFF) > 0", 3), (" .byte ((k - $1000) & $FFFFFFFF) / 256", 2), (" .byte (k << 20) > $80000000", 2),
            ("M = 1 << 31\n .byte (k | M) > 0", 3))),
        ("a large number that isn't one of the linker", {"l.s": " .dword $FFFFFFFF, $80000000 + 5\n"}, 0, "the same 1 of 1\n"),
        ("a large number, said", {"l.s": importing.format(" .byte (k << 20) > $80000000")}, 1, beyond),
        ("two scripts that don't link, the last line", {**good, **others}, 0, "; the whole program wasn't compared: there are 2 scripts"),
    ):
        with tempfile.TemporaryDirectory() as folder:
            os.makedirs(f"{folder}/src")
            for file, text in files.items():
                pages.put(f"{folder}/src/{file}", text)
            ran = tries.inside("port", "src", "-o", "out", folder=folder)
            tries.check(name, ran.returncode == status and said in ran.stdout, ran)


# Other options that a Makefile passes to ca65, and sources that need them
OPTIONS = (
    (("--cpu", "6502X"), " lax $20\n sax $1234\n"), (("--cpu", "6502"), ".ifp02\n .byte 1\n.endif\n"),
    (("--feature", "string_escapes"), ' .byte "a\\n"\n'), (("--feature", "labels_without_colons", "--feature", "dollar_is_pc"), "one nop\n jmp $\n"),
    (("--feature", "force_range"), " lda #-1\n"), ((), ".autoimport +\n .import print\n jsr print\n jsr music\n lda table,x\nown: jmp own\n"),
)


def options(tries):
    """Options of ca65 count in the copy."""
    for words, text in OPTIONS:
        with tempfile.TemporaryDirectory() as folder:
            for file, content in (("a.s", text), ("l.cfg", SCRIPT)):
                pages.put(f"{folder}/{file}", content)
            ran = tries.inside("port", "a.s", "-o", "out", *words, folder=folder)
            shutil.copy(f"{folder}/l.cfg", f"{folder}/out/l.cfg")
            ours = image([tries.program, "ca65"], [tries.program, "ld65"], "a.s", f"{folder}/out")
            theirs = image(["ca65", *words], ["ld65"], "a.s", folder)
            tries.check(f"{words} {text!r}", ran.returncode == 0 and isinstance(ours, bytes) and ours == theirs, (ran, ours, theirs))


# Sources that would go on without an end.
ENDLESS = (
    ".define again(x1) again x1 x1\n.byte again 3\n", ".define both both both\n lda #both\n",
    ".macro m a1\n n {a1 a1}\n.ident(\"x1\")\n.endmacro\n.macro n a1\n m {a1 a1}\n.endmacro\n m nop\n",
    ".macro m\n m\n m\n.ident(\"x1\")\n.endmacro\n m\n",
    ".macro m\n.repeat 1000\n.repeat 1000\n.ident(\"x1\")\n.endrepeat\n.endrepeat\n.endmacro\n m\n",
    f".byte <{'0' * 5000}1\n", f".byte <{'1' * 5000}\n", '.byte .sprintf("%20000000000d", 1)\n',
    ".include \"a.s\"\n", ".repeat 1000000\n.ident(\"x1\"):\n.endrepeat\n",
)


def endless(tries):
    """Tests that endless sources are reported, or left to bin65, within a few seconds."""
    for text in ENDLESS:
        with tempfile.TemporaryDirectory() as folder:
            pages.put(f"{folder}/a.s", text)
            begun = results.processor_seconds()
            ran = tries.work65("port", "a.s", "-o", "out", folder=folder)
            took = results.processor_seconds() - begun
            tries.check(f"without an end: {text!r}", took < 40 and ran.returncode in (0, 1) and not ran.stderr, ran.stderr[-500:])


def mutated(tries):
    """Sources with changed bytes give no traceback."""
    chance = random.Random(65)
    sources = [text for _, _, text in cases()]
    words = sorted({word for text in sources for word in re.findall(r"\S+", text)})
    with tempfile.TemporaryDirectory() as folder:
        os.mkdir(f"{folder}/in")
        for number in range(MUTATIONS):
            parts = re.split(r"(\s+)", chance.choice(sources))
            for _ in range(chance.randint(1, 6)):
                parts[chance.randrange(len(parts))] = chance.choice([chance.choice(words), "", "\n", chr(chance.randrange(256))])
            with open(f"{folder}/in/{number}.s", "w", encoding="latin-1") as it:
                it.write("".join(parts))
        for command in (("check", "in"), ("port", "in", "-o", "out")):
            ran = tries.work65(*command, folder=folder)
            tries.check(f"{command[0]} of mutations", ran.returncode in (0, 1) and not ran.stderr, ran.stderr[-600:])


def main():
    tries = Tries(sys.argv[1])
    has_cc65 = shutil.which("ca65") is not None and shutil.which("ld65") is not None
    if not has_cc65:
        print("cc65 isn't installed: images are compared with none of its own")
    for name, target, text in cases():
        ported(tries, name, target, text, has_cc65)
    pairs(tries, has_cc65)
    if cc65_files.is_there():
        scripts(tries)
    if cc65_files.is_there() and has_cc65:
        tree(tries)
    if has_cc65:
        mixed(tries)
        ended(tries)
        other_names(tries)
        beside(tries)
        several_scripts(tries)
        options(tries)
    examples(tries)
    copies(tries)
    names(tries, has_cc65)
    bad_input(tries)
    endless(tries)
    mutated(tries)
    print(f"{tries.passed} passed, {tries.failed} failed")
    sys.exit(tries.failed > 0)


main()
