#!/usr/bin/env python3
"""Tries `work65 second`: follows example/second/README.md, changes the image of cc65's linker in each kind of place, gives it
options, libraries, images and constructs that can't be converted, and runs the steps of workflow.yml. If cc65 isn't installed,
only the message about that is tested.

usage: second.py BIN65. The last line is 'N passed, M failed'."""
import os
import re
import shutil
import subprocess
import sys
import tempfile

import pages

WORK65 = f"{pages.ROOT}/workbench/work65.sh"
SCRIPT = """FEATURES { STARTADDRESS: default = $1000; }
MEMORY {
    Z:    start = 2, size = 8, file = "";
    HEAD: start = 0, size = 4, fill = yes, fillval = $EE;
    LOW:  start = %S, size = $10, define = yes;
    HIGH: start = $1012, size = $20;
    SIDE: start = $4000, size = 8, file = "side.bin", fill = yes;
}
SEGMENTS {
    ZEROPAGE: load = Z, type = zp, optional = yes;
    HEAD: load = HEAD, type = ro;       # four bytes, of which two are the area's
    CODE: load = LOW, define = yes;
    BSS: load = LOW, type = bss;
    DATA: load = HIGH, run = LOW;
    TAIL: load = HIGH, align = 8;
    SIDE: load = SIDE, type = ro;
}
"""
ONE = """.define TEN $10
.segment "HEAD"
 .byte 1, 2
.code
 .byte TEN, TEN + 1
 .byte $12
.bss
 .res 5
.data
 .byte $20, $21
.segment "TAIL"
 .byte $30
.segment "SIDE"
 .byte $40
"""
TWO = """.code
 .align 2
.macro put value
 .byte value
.endmacro
 put $13
.data
 .byte $22
.segment "TAIL"
 .byte $31, $32
"""
# A byte of the image and its location, computed by hand. HEAD has 4 bytes, LOW those of CODE (3, a gap, 1) in the image, and
# HIGH those of DATA (3), which is loaded at $1012, and of TAIL, from $1018 on.
PLACES = (
    (0, "area HEAD, segment HEAD, module one.s, one.s:3"),
    (3, "in no segment"),
    (4, "area LOW, segment CODE, module one.s, one.s:5"),
    (6, "area LOW, segment CODE, module one.s, one.s:6"),
    (7, "area LOW, segment CODE, between two modules"),
    (8, "area LOW, segment CODE, module two.s, two.s:4 in two.s:6"),
    (10, "area HIGH, segment DATA, module one.s, one.s:10"),
    (11, "area HIGH, segment DATA, module two.s, two.s:8"),
    (13, "in no segment"),
    (17, "area HIGH, segment TAIL, module two.s, two.s:10"),
)
SIDE = "side.bin differs from byte 0 on (cc65 and bin65: BF and 40): area SIDE, segment SIDE, module one.s, one.s:14\n"
UNEXPLAINED = "not explained by MIGRATING\n"


def cc65_with(folder, change):
    """A folder with cc65's tools, whose linker changes an image by a command of Python's where B is its bytes."""
    os.makedirs(folder)
    pages.put(f"{folder}/ld65", f"""#!{sys.executable}
import glob, subprocess, sys
status = subprocess.run(["{shutil.which('ld65')}", *sys.argv[1:]]).returncode
B = bytearray(open("image", "rb").read()); S = [bytearray(open(it, "rb").read()) for it in glob.glob("area*")]
{change}
open("image", "wb").write(B)
for name, it in zip(glob.glob("area*"), S): open(name, "wb").write(it)
sys.exit(status)
""")
    os.chmod(f"{folder}/ld65", 0o755)
    return folder


class Tries:
    def __init__(self, program, top):
        self.program, self.top, self.checks = program, top, {}

    def second(self, *words, tools=None, path=None, folder=None):
        path = path or (os.environ["PATH"] if tools is None else f"{tools}:{os.environ['PATH']}")
        how = {**os.environ, "PATH": path, "BIN65": self.program, "TMPDIR": f"{self.top}/temporary"}
        return subprocess.run(["/bin/sh", WORK65, "second", *words], cwd=folder or self.top, capture_output=True, text=True, env=how, check=False)

    def check(self, name, is_so, said=""):
        self.checks[name] = bool(is_so)
        if not is_so:
            print(f"{name}: FAILED {said}")

    def says(self, name, ran, status, said):
        """One line and the status."""
        self.check(name, (ran.returncode, ran.stdout) == (status, said) and not ran.stderr, ran)


def readme(tries):
    """The outputs that the page shows; the project stays as it is."""
    shutil.copytree(f"{pages.ROOT}/example", f"{tries.top}/example", ignore=shutil.ignore_patterns("out"))
    tools = pages.tools_of(tries.program, f"{tries.top}/tools")
    before, game = listed(f"{tries.top}/example/second/project"), os.stat(f"{tries.top}/example/second/project/game.s")
    wrong = pages.carry_out(pages.steps(pages.read("example/second/README.md")), tools, f"{tries.top}/example/second")
    tries.check("the page", not wrong, wrong)
    os.utime(f"{tries.top}/example/second/project/game.s", ns=(game.st_atime_ns, game.st_mtime_ns))
    tries.check("the project stays as it is", listed(f"{tries.top}/example/second/project") == before)


def listed(folder):
    """The files below a folder, when they were written, and their bytes. The build's own folder isn't looked at."""
    found = []
    for place, _, names in os.walk(folder):
        if os.path.basename(place) == "build":
            continue
        for name in names:
            with open(f"{place}/{name}", "rb") as it:
                found.append((f"{place}/{name}", os.stat(it.fileno()).st_mtime_ns, it.read()))
    return sorted(found)


def places(tries):
    """An image in which cc65's linker has another byte, or more or fewer of them."""
    for name, text in (("a.cfg", SCRIPT), ("one.s", ONE), ("two.s", TWO)):
        pages.put(f"{tries.top}/{name}", text)
    words = ("-C", "a.cfg", "one.s", "two.s")
    tries.says("two files", tries.second(*words), 0, "the same image: a.out, 18 bytes\nthe same image: side.bin, 8 bytes\n")
    for at, where in PLACES:
        tools = cc65_with(f"{tries.top}/cc65-{at}", f"B[{at}] ^= 255")
        ran = tries.second(*words, tools=tools)
        good = re.fullmatch(rf"the image differs from byte {at} on \(cc65 and bin65: (..) and (..)\): {re.escape(where)}\n{UNEXPLAINED}", ran.stdout)
        tries.check(f"byte {at}", ran.returncode == 1 and good and int(good[1], 16) == int(good[2], 16) ^ 255, ran)
    for name, change, said in (("shorter", "del B[-1]", "of 17 and 18 on (cc65 and bin65: no byte and 32)"),
                               ("longer", "B.append(7)", "of 19 and 18 on (cc65 and bin65: 07 and no byte)")):
        ran = tries.second(*words, tools=cc65_with(f"{tries.top}/cc65-{name}", change))
        tries.check(name, ran.returncode == 1 and said in ran.stdout, ran)
    tries.says("another file", tries.second(*words, tools=cc65_with(f"{tries.top}/cc65-side", "S[0][0] ^= 255")), 1, SIDE + UNEXPLAINED)


def images(tries):
    """An image that is named, also where cc65's tools aren't there."""
    os.makedirs(f"{tries.top}/old")
    script = "MEMORY { M: start = $2000, size = $10; }\nSEGMENTS { CODE: load = M; }\n"
    pages.put(f"{tries.top}/i.cfg", script)
    pages.put(f"{tries.top}/i.s", ".define FIVE 5\n lda #FIVE\n rts\n")
    empty = f"{tries.top}/python"
    os.makedirs(empty)
    for it in ("python3", "sh", "dirname", "readlink"):
        os.symlink(shutil.which(it), f"{empty}/{it}")
    with open(f"{tries.top}/old/game.bin", "wb") as it:
        it.write(bytes.fromhex("A90560"))
    words = ("-C", "i.cfg", "i.s")
    tries.says("an image", tries.second(*words, "--image", "old/game.bin", path=empty), 0, "the same image: old/game.bin, 3 bytes\n")
    pages.put(f"{tries.top}/j.s", " jmp far\nn = 5\n.proc p\n lda n\n.proc q\n lda n\n.endproc\n.endproc\nfar: rts\n")
    with open(f"{tries.top}/old/form.bin", "wb") as it:
        it.write(bytes.fromhex("4C 08 20 A5 05 AD 05 00 60"))
    ran = tries.second("-C", "i.cfg", "j.s", "--image", "old/form.bin", path=empty)
    tries.says("an image with a longer form", ran, 0, "the same image: old/form.bin, 9 bytes\n")
    with open(f"{tries.top}/old/game.bin", "wb") as it:
        it.write(bytes.fromhex("A90660"))
    said = "the image differs from byte 1 on (cc65 and bin65: 06 and 05): area M, segment CODE, module i.s, i.s:2\n" + UNEXPLAINED
    tries.says("another image", tries.second(*words, "--image", "old/game.bin", path=empty), 1, said)
    ran = tries.second(*words, path=empty)
    good = "work65: cc65's ca65 isn't on the path; give an image to compare with by --image\n"
    tries.check("no cc65 and no image", (ran.returncode, ran.stderr) == (2, good), ran)


def without_bytes(tries):
    """An image without bytes, a script that writes no file, and a file whose name has %O in it."""
    rows = "size = $10; }\nSEGMENTS { CODE: load = M; }\n"
    for name, start in (("empty", "start = $2000, "), ("none", 'start = $2000, file = "", '), ("side", 'start = $2000, file = "%O.chr", ')):
        pages.put(f"{tries.top}/{name}.cfg", f"MEMORY {{ M: {start}{rows}")
    pages.put(f"{tries.top}/empty.s", "n = 5\n")
    tries.says("no bytes", tries.second("-C", "empty.cfg", "empty.s"), 0, "the same image: a.out, 0 bytes\n")
    said = "none.cfg: no area is written to a file: there is no image to compare\n"
    tries.says("no file", tries.second("-C", "none.cfg", "i.s"), 1, said)
    tries.says("a file beside the output", tries.second("-C", "side.cfg", "i.s"), 0, "the same image: a.out.chr, 3 bytes\n")
    for name, last in (("empty", "compared: the program by empty.cfg: the same (the image, 0 bytes)\n"),
                       ("none", "compared: each source alone at two placements: the same 1 of 1; "
                        "no area of none.cfg is written to a file: the whole program wasn't compared\n")):
        words = ("/bin/sh", WORK65, "port", f"{name}.cfg", "empty.s", "-o", f"{tries.top}/port-{name}", "--bin65", tries.program)
        ran = subprocess.run(words, cwd=tries.top, capture_output=True, text=True, check=False)
        tries.says(f"port: {name}", ran, 0, last)


def exports_without_use(tries):
    """A symbol of an area that no object uses and that bin65 does not make (__M_FILEOFFS__) is no difference."""
    rows = "BSS: load = M, type = bss; CODE: load = M, align = 8;"
    pages.put(f"{tries.top}/m.cfg", f"MEMORY {{ M: start = $8000, size = $20, define = yes; }}\nSEGMENTS {{ {rows} }}\n")
    pages.put(f"{tries.top}/m.s", ".bss\n .res 4\n.code\n .byte 9\n")
    tries.says("no use of an area's symbols", tries.second("-C", "m.cfg", "m.s"), 0, "the same image: a.out, 5 bytes\n")


def others(tries):
    """Included files, `-D` names, data, libraries in their order, and rejected constructs."""
    for folder in ("inc/deep", "gfx", "lib"):
        os.makedirs(f"{tries.top}/{folder}")
    texts = {
        "inc/deep/n.inc": "N = 7\n", "three.s": '.include "n.inc"\n .import fn\n jsr fn\n .byte N, M\n .incbin "t.chr"\n.ifdef __NES__\n .byte 9\n.endif\n',
        "lib/f.s": " .export fn\nfn: rts\n", "lib/g.s": " .export gn\ngn: brk\n", "lib/e.s": " .export fn\nfn: nop\n", "gfx/t.chr": "tile",
        "b.cfg": "MEMORY { M: start = $8000, size = $10; }\nSEGMENTS { CODE: load = M; }\n",
        "bad.s": " nop\n stz 5\n", "worse.s": " lda #\n", "diff.s": "n = 5\n.proc p\n lda n\n.ifdef n\n nop\n.endif\n.endproc\n",
    }
    for name, text in texts.items():
        pages.put(f"{tries.top}/{name}", text)
    words = ("-C", "b.cfg", "-I", "inc/deep", "-D", "M=5", "--bin-include-dir", "gfx", "-t", "nes", "three.s")
    tries.says("options and a library of files", tries.second(*words, "--library", "l.lib=lib/g.s,lib/f.s"), 0, "the same image: a.out, 11 bytes\n")
    pages.put(f"{tries.top}/number.s", " .byte BAR\n")
    for number in ("0x12", "022", "$12"):
        ran = tries.second("-C", "b.cfg", "-D", f"BAR={number}", "number.s")
        tries.says(f"-D BAR={number}", ran, 0, "the same image: a.out, 1 bytes\n")
    ran = tries.second(*words, "--library", "l.lib=lib")
    tries.check("a folder of two members with one name", ran.returncode in (0, 2), ran)
    ran = tries.second("-C", "b.cfg", "bad.s")
    tries.check("a source that cc65 refuses", ran.returncode == 2 and ran.stdout.startswith("cc65's own tools refuse it: bad.s(2): Error: "), ran)
    pages.put(f"{tries.top}/bad.s", ".setcpu \"65C02\"\n nop\n stz 5\n")
    ran = tries.second("-C", "b.cfg", "bad.s")
    tries.check("a place that can't be brought over", ran.returncode == 2 and re.search(r"^bad\.s:3: stz: ", ran.stdout, re.M), ran)
    shutil.copy("/usr/share/cc65/lib/none.lib", f"{tries.top}/none.lib")
    ran = tries.second("-C", "b.cfg", "diff.s", "none.lib")
    tries.check("a library of cc65's", ran.returncode == 2 and "none.lib: an object or a library of cc65's" in ran.stderr, ran)
    ran = tries.second("-C", "b.cfg", "diff.s", "none.s")
    tries.check("no source", ran.returncode == 2 and ran.stderr == "work65: none.s: no such file\n", ran)
    ran = tries.second("-C", "b.cfg")
    tries.check("no sources", ran.returncode == 2, ran)
    pages.put(f"{tries.top}/s.cfg", "SYMBOLS { AT: type = weak, value = $2000; }\nMEMORY { M: start = AT, size = $10; }\nSEGMENTS { CODE: load = M; }\n")
    pages.put(f"{tries.top}/s.s", " .import LIMIT\n lda #<LIMIT\n jmp *\n")
    for values in ((), ("--symbol", "AT=12288")):
        tries.says("symbols of ld65", tries.second("-C", "s.cfg", "--symbol", "LIMIT=5", *values, "s.s"), 0, "the same image: a.out, 5 bytes\n")
    tries.check("nothing is left", not os.listdir(f"{tries.top}/temporary"), os.listdir(f"{tries.top}/temporary"))


def documented(tries):
    """A difference that MIGRATING tells of has its heading; each such heading is there."""
    pages.put(f"{tries.top}/d.cfg", "MEMORY { M: start = $8000, size = $20; }\nSEGMENTS { BSS: load = M, type = bss; CODE: load = M; }\n")
    pages.put(f"{tries.top}/d.s", ".bss\n .res 2\n.code\n nop\n")
    tries.says("room before bytes", tries.second("-C", "d.cfg", "d.s"), 0, "the same image: a.out, 1 bytes\n")
    rows = "CODE: load = M; DATA: load = M, align = 16, optional = yes;"
    pages.put(f"{tries.top}/e.cfg", f"MEMORY {{ M: start = $8000, size = $20; }}\nSEGMENTS {{ {rows} }}\n")
    pages.put(f"{tries.top}/e.s", " nop\n")
    note = "e.cfg: DATA has no bytes: bin65's file is filled up to it (MIGRATING: A row with `align`, `start` or `offset` whose segment nobody uses)\n"
    tries.says("a row without bytes", tries.second("-C", "e.cfg", "e.s"), 0, f"the same image: a.out, 16 bytes\n{note}")
    ran = tries.second("-C", "b.cfg", "diff.s")
    good = "\ndiff.s:4: n: in a scope that has used it cc65 treats it as undefined: " in ran.stdout
    tries.check("a place that was said", ran.returncode == 1 and good, ran)
    pages.put(f"{tries.top}/k.s", " .export k\nk = -1\n")
    pages.put(f"{tries.top}/l.s", " .import k\n .byte k < 0\n")
    ran = tries.second("-C", "b.cfg", "k.s", "l.s")
    lines = ran.stdout.splitlines()
    is_named = len(lines) == 2 and lines[1].startswith("l.s:2: k: ") and lines[1].endswith("(MIGRATING: Numbers of more than 32 bits)")
    tries.check("an import's sign", ran.returncode == 1 and is_named, ran)
    text = pages.read("docs/MIGRATING.md")
    for heading in ("A row with `align`, `start` or `offset` whose segment nobody uses", "Numbers of more than 32 bits"):
        tries.check(f"MIGRATING has {heading}", f"\n### {heading}\n" in text)


SCRIPT_OF_ONE = "MEMORY {{ M: start = $8000, size = $100{} }}\nSEGMENTS {{ CODE: load = M; DMC: load = M, align = 64, optional = yes; }}\n"


def unexplained(tries):
    """An image with a byte that was changed by hand gets no heading that doesn't explain it."""
    pages.put(f"{tries.top}/u.cfg", SCRIPT_OF_ONE.format(", fill = yes;"))
    for name, text, at, said in (("n", "v = 5\n lda #v\n nop\n jmp $8000\n", 2, "55 and EA"), ("v", "v = 5\n lda v\n jmp $8000\n", 2, "55 and 4C")):
        pages.put(f"{tries.top}/{name}.s", text)
        tools = cc65_with(f"{tries.top}/cc65-{name}", f"B[{at}] = 0x55")
        ran = tries.second("-C", "u.cfg", f"{name}.s", tools=tools)
        good = f"the image differs from byte {at} on (cc65 and bin65: {said}): area M, segment CODE, module {name}.s, {name}.s:3\n"
        tries.check(f"not explained: {name}", (ran.returncode, ran.stdout) == (1, good + UNEXPLAINED), ran)


def names_of_files(tries):
    """Files of a script with the output's name, or with names that a script for bin65 can't have."""
    os.makedirs(f"{tries.top}/files")
    pages.put(f"{tries.top}/files/f.s", " nop\n")
    for name in ("image", "a.out", "./x.bin", "%O.two", "x.bin"):
        pages.put(f"{tries.top}/files/f.cfg", SCRIPT_OF_ONE.format(f', file = "{name}";').replace(", align = 64", ""))
        shown = name.replace("%O", "a.out")
        folder = f"{tries.top}/files"
        tries.says(f"a file {name}", tries.second("-C", "f.cfg", "f.s", folder=folder), 0, f"the same image: {shown}, 1 bytes\n")
        image = name.replace("%O.two", "x.bin.two")
        with open(f"{folder}/{image}", "wb") as it:
            it.write(b"\xea")
        given = "x.bin" if image.startswith("x.bin.") else image
        tries.says(f"an image {name}", tries.second("-C", "f.cfg", "--image", given, "f.s", folder=folder), 0, f"the same image: {image}, 1 bytes\n")


def libraries(tries):
    """Two libraries of one name in two folders."""
    for name, text in (("a.s", ".import fn\n jsr fn\n"), ("x/f.s", ".export fn\n.import gn\nfn: jmp gn\n"), ("y/g.s", ".export gn\ngn: rts\n")):
        os.makedirs(f"{tries.top}/two/{os.path.dirname(name)}", exist_ok=True)
        pages.put(f"{tries.top}/two/{name}", text)
    words, folder = ("-C", "../b.cfg", "a.s"), f"{tries.top}/two"
    ran = tries.second(*words, "--library", "x/m.lib=x/f.s", "--library", "y/m.lib=y/g.s", folder=folder)
    tries.says("two libraries of one name", ran, 0, "the same image: a.out, 7 bytes\n")
    ran = tries.second(*words, "--library", "y/m.lib=y/g.s", "--library", "x/m.lib=x/f.s", folder=folder)
    good = ran.returncode == 2 and ran.stdout.startswith("cc65's own tools refuse it: Unresolved external 'gn' referenced in:\n")
    tries.check("two libraries of one name in the wrong order", good, ran)


MESSAGES = (
    (" .import one, two\n lda one\n lda two\n", "CODE: load = M;", ("Unresolved external 'one'", "Unresolved external 'two'", "w.s(2)", "w.s(3)")),
    (" .res 20\n", "CODE: load = M;", ("w.cfg", "overflows", "by 4 bytes")),
    (" .res 2\n", "CODE: load = RAM;", ("w.cfg(2): ",)),
)


def messages(tries):
    """Messages of cc65's tools come through whole, with the script's own name; many warnings are no error."""
    for text, rows, parts in MESSAGES:
        pages.put(f"{tries.top}/w.cfg", f"MEMORY {{ M: start = $8000, size = $10; }}\nSEGMENTS {{ {rows} }}\n")
        pages.put(f"{tries.top}/w.s", text)
        ran = tries.second("-C", "w.cfg", "w.s")
        tries.check(f"a message with {parts}", ran.returncode == 2 and all(it in ran.stdout for it in parts), ran)
    pages.put(f"{tries.top}/w.s", ' .warning "this is a text of some length, so that all of them are long"\n' * 1500)
    tries.says("many warnings", tries.second("-C", "b.cfg", "w.s"), 0, "the same image: a.out, 0 bytes\n")
    os.mkfifo(f"{tries.top}/pipe")
    for word in (".include", ".incbin"):
        pages.put(f"{tries.top}/w.s", f' {word} "pipe"\n')
        ran = tries.second("-C", "b.cfg", "w.s")
        tries.check(f"{word} of a pipe", ran.returncode == 2 and ran.stderr.endswith("pipe: not a regular file\n") and not ran.stdout, ran)
    ran = subprocess.run(["sh", "-c", f"exec sh {WORK65} second -C b.cfg empty.s >&-"], cwd=tries.top, env={**os.environ, "BIN65": tries.program},
                         capture_output=True, text=True, check=False)
    tries.check("no output", (ran.returncode, ran.stderr) == (2, "work65: standard output is closed\n"), ran)


FIXED = (
    (("-D", "COUNT=3"), ".ifndef COUNT\nCOUNT = 2\n.endif\n.repeat COUNT, i\n.ident(.sprintf(\"l%d\", i)): .byte i\n.endrepeat\n", 3),
    (("-D", "PAL"), "K = .defined(PAL)\nM = .defined(NTSC)\n.repeat K + M, i\n.ident(.sprintf(\"l%d\", i)): .byte K, M\n.endrepeat\n", 2),
    (("-D", "S=7"), ".repeat 40, i\n .byte .min(255, i * S)\n.endrepeat\n", 40), (("-D", "B=42"), " .byte .sprintf(\"BUILD %03d\", B)\n", 9),
    (("-C", "apple2-asm.cfg"), " .byte 1\n", 1), (("--symbol", "K=0x33"), ".import K\n .byte <K\n", 1),
)


def fixed(tries):
    """second knows each -D, so names that they give or don't give have values."""
    pages.put(f"{tries.top}/x.cfg", SCRIPT_OF_ONE.format(";"))
    for words, text, size in FIXED:
        pages.put(f"{tries.top}/x.s", text)
        tries.says(f"{words}", tries.second("-C", "x.cfg", *words, "x.s"), 0, f"the same image: a.out, {size} bytes\n")


def steps_of_the_workflow():
    """Its steps that run something, as (name, line)."""
    return re.findall(r"- name: (.*)\n +run: (.*)\n", pages.read("example/second/workflow.yml"))


def alone(tries):
    """Tests that need no cc65."""
    steps = [it[0] for it in steps_of_the_workflow()]
    tries.check("the steps", steps == ["install cc65", "install bin65", "compare"], steps)


def workflow(tries):
    """The steps of the workflow as written, but for the one that installs Debian's package."""
    project, crates = f"{tries.top}/repository", f"{tries.top}/crates"
    shutil.copytree(f"{pages.ROOT}/example/second", project)
    sys.path.insert(0, f"{pages.ROOT}/gate")
    sys.dont_write_bytecode = True
    import release
    for name in release.crates_of_the_program():
        os.makedirs(f"{crates}/{name}/out")
        pages.put(f"{crates}/{name}/out/prove.log", "a log\n")
    subprocess.run(["python3", f"{pages.ROOT}/gate/release.py", "pack", tries.program, f"{project}/tools", crates], capture_output=True, check=True)
    os.makedirs(f"{tries.top}/runner")
    how = {"HOME": f"{tries.top}/home", "RUNNER_TEMP": f"{tries.top}/runner", "PATH": os.environ["PATH"]}
    for name, line in steps_of_the_workflow()[1:]:
        ran = subprocess.run(["bash", "-e", "-c", line], cwd=project, env=how, capture_output=True, text=True, check=False)
        tries.check(name, ran.returncode == 0, ran)
    good = "project/build/game.prg: the same image, 346 bytes in 2 files (1 module, 2 of lib.lib)\n"
    tries.check("what the workflow says", ran.stdout.endswith(f"\n{good}"), ran)


def main():
    with tempfile.TemporaryDirectory() as top:
        tries = Tries(os.path.abspath(sys.argv[1]), top)
        os.makedirs(f"{top}/temporary")
        alone(tries)
        images(tries)
        if all(map(shutil.which, ("ca65", "ld65", "ar65"))):
            for part in (readme, places, without_bytes, exports_without_use, others, documented, unexplained, names_of_files, libraries,
                         messages, fixed, workflow):
                part(tries)
        else:
            print("cc65 isn't here: nothing is built twice and compared")
    print(f"{sum(tries.checks.values())} passed, {len(tries.checks) - sum(tries.checks.values())} failed")
    sys.exit(not all(tries.checks.values()))


main()
