#!/usr/bin/env python3
"""Tests `work65 check`: it finds each habit of its table at its line; it finds each text of docs/MIGRATING.md that must change, and nothing
in the replacements; the page's generated parts are up to date; and in cc65's own files and other sources of the machine it finds the
line that bin65 reports, and nothing in files that bin65 accepts.

usage: workbench_check.py BIN65. The last line is 'N passed, M failed'."""
import json
import os
import re
import resource
import subprocess
import sys
import tempfile

import pages
import cc65_files

sys.path.insert(0, f"{pages.ROOT}/workbench")
from work65.commands import check  # noqa: E402
from work65.habits import page, table  # noqa: E402

WORK65 = f"{pages.ROOT}/workbench/work65.sh"
# A source or script for each habit: the line that is found is the first with a mark of '<'.
CASES = {
    "colon": "start lda #1 <", "digit": " nop\n@1: rts <", "cheap-constant": "l1: nop\n@x = 5 <",
    "global-constant": "::GUARD = 1 <", "define": ".define W 40 <", "define-list": '.define T "a", 1 <',
    "define-parameters": ".define f(x1) x1 <", "define-empty": ".define GUARD <", "undefine": ".undefine W <",
    "struct": ".struct P <\nx1 .byte\n.endstruct", "union": ".union U <\n.endunion", "enum": ".enum <\nA1\n.endenum",
    "sizeof": " .byte .sizeof(p) <", "longbranch": ".macpack longbranch <", "generic": ".macpack generic <",
    "scrcode": ".macpack atari <", "package": ".macpack cpu <", "charmap": " .charmap 1, 2 <", "org": " nop\n .org $C000 <",
    "undocumented": " lax $10 <", "processor": " stz $10 <", "set": "n .set 1 <", "defined": ".if .defined(n) <\n.endif",
    "blank": ".if .blank({}) <\n.endif", "ident": '.ident("a1"): <', "strlen": ' .byte .strlen("a") <',
    "match": ".if .match({a}, {b}) <\n.endif", "continuation": " .byte 1, \\ <\n 2", "size-behind": " .import a1: zeropage <",
    "export-value": " .export a1 = 3 <", "in-scope": ".scope s\n .import a1 <\n.endscope", "cpu": ".ifpc02 <\n.endif",
    "const": ".ifconst n <\n.endif", "lderror": ' .assert 1, lderror, "a" <', "lobytes": " .lobytes 1, 2 <",
    "low": " .word .loword(1) <", "least": " .byte .min(1, 2) <", "delmacro": ".delmacro m <", "condes": " .condes f, 1 <",
    "autoimport": ".autoimport + <", "referenced": ".ifref n <\n.endif", "fatal": ' .fatal "a" <', "bank": " .byte .bank(a1) <",
    "arrows": " bne :> <", "brk": " brk #1 <", "goes": ".list on <", "unknown": " .word .version <", "feature": ".feature c_comments <",
    "escapes": ".feature string_escapes <", "bracket": " lda [$20],y <", "comment": "/* a */ <", "underline": " .word 1_000 <",
    "quote": " lda #'x <", "capitals": " .assert 1, ERROR <", "asciiz": ' .asciiz "a", "b" <', "incbin": ' .incbin "f", 1, -1 <',
    "cheap-twice": "l: nop\n@a: nop\nn = 1\n@a: nop <",
    "incbin-file": ' .incbin "nowhere" <', "include-file": ' .include "nowhere" <',
    "long-line": f" .byte 1{', 1' * 1400} <", "zero-page-import": ".zeropage\n .import a1 <",
    "include-late": '.repeat 2\n .include "a.inc" <\n nop\n.endrepeat', "align": " .align 3 <", "local-cheap": ".ifdef @l <\n.endif", "text": ' .out .sprintf("%d", 1) <', "string-value": ' lda #"A" <',
    "far": " lda f:$1234 <", "colons": " dec z:::n <", "macro-call": ".macro m\n .byte .min(1, 2)\n.endmacro\n m <", "form": " ldaa #1 <",
    "script-block": "FEATURES { } #<", "script-start": "MEMORY { M: start = %S, size = 1; } #<",
    "script-bank": "MEMORY { M: start = 1, size = 1, bank = 2; } #<", "script-yes": "MEMORY { M: start = 1, size = 1, fill = true; } #<",
    "script-number": "MEMORY { M: start = 0x10, size = 4k; } #<", "script-sum": "SYMBOLS { a: type = export, value = 1 + 2; } #<",
    "script-sign": "MEMORY { M: start = 1, size = 2 * 3; } #<",
    "script-weak": "SYMBOLS { a: type = weak, value = 1; }\nMEMORY { M: start = 1, size = a; } #<",
    "script-name": "MEMORY { M: start = 1, size = a; } #<",
    "script-overwrite": "MEMORY { M: start = 1, size = 1; }\nSEGMENTS { C: load = M, type = overwrite; } #<",
    "script-areas": "SEGMENTS { C: load = M, run = N, type = bss; } #<", "script-form": "NOTHING { } #<",
}
# A tree's files, the arguments of `check`, and the expected findings: the file, the line and the habit.
INIT = ".macro init\n sei\n.endmacro\n"
TREES = {
    "a header beside the source": ({"a.s": ' .include "m.h"\n init\n', "m.h": f"{INIT} .org 16\n"}, "a.s", "m.h:4:org"),
    "a file in a folder of -I": ({"a.s": ' .include "e.inc"\n', "inc/e.inc": ".enum\nA1\n.endenum\n"}, "a.s -I inc", "inc/e.inc:1:enum"),
    "a macro of an included file": (
        {"a.s": ' .include "m.inc"\n init\n foo\n', "m.inc": f'{INIT}.macro foo\n .byte .strlen("ab")\n.endmacro\n'}, "a.s",
        "a.s:3:macro-call m.inc:5:strlen"),
    "a file that a line left out includes": ({"a.s": '.ifdef NO\n .include "b.inc"\n.endif\n', "b.inc": " .org 1\n"}, "a.s", ""),
    "a file beside an outer one": (
        {"main.s": '.include "inc/a.inc"\n', "inc/a.inc": '.include "b.inc"\n', "b.inc": " nop\n"}, "main.s", "inc/a.inc:1:include-file"),
    "the same with -I": ({"main.s": '.include "inc/a.inc"\n', "inc/a.inc": '.include "b.inc"\n', "b.inc": " nop\n"}, "main.s -I .", ""),
    "a file that isn't there": ({"a.s": '.include "none.inc"\n'}, "a.s", "a.s:1:include-file"),
    "text after .end": ({"a.s": " nop\n .end\nanything after the end is ignored\n"}, "a.s", ""),
    "text after an .end that isn't sure": ({"a.s": ".if N > 1\n .end\n.endif\n .org 1\n"}, "a.s", "a.s:4:org"),
    "Makefile.inc": ({"Makefile.inc": "all: game.nes\n", "a.s": " nop\n"}, ".", ""),
    "dec and inc alone": ({"a.s": "l: dec\n inc\n dec l\n asl\n"}, "a.s", "a.s:1:processor a.s:2:processor"),
    "data elsewhere": ({"a.s": ' .incbin "g.bin"\n .incbin "gfx/g.bin"\n', "gfx/g.bin": ""}, "a.s", "a.s:1:incbin-file"),
    "included files of macros": (
        {"a.s": '.macro one\n .include "b.inc"\n.endmacro\n.macro two f\n .include f\n nop\n.endmacro\n one\n two "b.inc"\n', "b.inc": ""}, "a.s",
        "a.s:5:include-late"),
    "names that features allow": (
        {"a.s": ".feature dollar_in_identifiers\na$b: nop\n"}, "a.s", "a.s:1:feature a.s:2:form"),
    "data beside the caller": (
        {"a.s": ' .include "inc/m.inc"\n load\n', "inc/m.inc": '.macro load\n .incbin "g.bin"\n.endmacro\n', "g.bin": ""}, "a.s", ""),
    "strings with escapes": (
        {"a.s": '.feature string_escapes\n .byte "a\\n", "b"\n .asciiz "b"\n'}, "a.s", "a.s:1:escapes a.s:2:escapes"),
    "a string without escapes": ({"a.s": ' .byte "a\\n"\n'}, "a.s", ""),
    "cheap labels of two regions": (
        {"a.s": "l: nop\n@a: bne @a\nm: nop\n@a: bne @a\n.if N\n@b: nop\n.else\n@b: nop\n.endif\n@c: nop\n mac\n@c: nop\n"
                ".macro mac\nq: nop\n.endmacro\n"}, "a.s", ""),
    "a long line": ({"a.s": f" .byte 1{', 1' * 1362}00\n .byte 1{', 1' * 1362}000\n"}, "a.s", "a.s:2:long-line"),
    "a long line left out": ({"a.s": f".if 0\n .byte 1{', 1' * 1400}\n.endif\n"}, "a.s", "a.s:2:long-line"),
    "imports in the zero page": (
        {"a.s": ".import a1\n.zeropage\n.import b1\n.importzp c1\n.pushseg\n.code\n.import d1\n.popseg\n.forceimport e1\n.code\n"
                ".import f1\n"},
        "a.s", "a.s:3:zero-page-import a.s:9:zero-page-import"),
    "a zero page segment of its own": (
        {"a.s": '.segment "FAST": zeropage\n.code\n.segment "FAST"\n.global a1, b1\nb1: .res 1\n'}, "a.s", "a.s:4:zero-page-import"),
}
# Messages that don't tell a habit: what the file needs isn't there.
ELSEWHERE = ("file not found", "undefined name", "file error", "file too long", "export not defined", "imported and defined")
OTHERS = 120


class Tries:
    """Counts of passed and failed checks."""

    def __init__(self, program):
        self.program = os.path.abspath(program)
        self.passed = self.failed = 0

    def check(self, name, is_so, found=""):
        self.passed, self.failed = self.passed + bool(is_so), self.failed + (not is_so)
        if not is_so:
            print(f"{name}: {found}")

    def work65(self, *words, folder="/", stdout=subprocess.PIPE, user=None):
        how = {**os.environ, "BIN65": self.program, "PYTHONDONTWRITEBYTECODE": "1"}
        line = ["sh", WORK65, "check", *words]
        streams = {"stdout": stdout, "stderr": subprocess.PIPE, "text": True}
        return subprocess.run(line, cwd=folder, env=how, check=False, user=user, timeout=60, **streams)


def habits(tries, folder):
    """Tests that each habit of the table is found at its line, and nothing before it."""
    tries.check("each habit has a case", set(CASES) == set(table.BY_NAME), set(CASES) ^ set(table.BY_NAME))
    for name, text in CASES.items():
        lines = text.split("\n")
        wanted = next(at for at, it in enumerate(lines, 1) if it.endswith("<"))
        file = f"{folder}/a.cfg" if name.startswith("script-") else f"{folder}/a.s"
        pages.put(file, text.replace(" <", "").replace(" #<", "") + "\n")
        found = [(it.line, it.habit.name) for it in check.findings([file])]
        tries.check(f"habit {name}", (wanted, name) in found, found)


def page_parts(tries):
    """Tests that the page's contents, search and list are those of the table, and that each habit has a heading."""
    text = pages.read("docs/MIGRATING.md")
    tries.check("parts of the page", page.made(text) == text, "run `python3 -m work65.habits.page docs/MIGRATING.md` in workbench/")
    headings = set(re.findall(r"^##+ (.*)$", text, re.M))
    for it in table.HABITS:
        tries.check(f"heading of {it.name}", it.heading in headings, it.heading)


def pairs(tries, folder):
    """Tests that each text that the page changes is found, and its replacement isn't."""
    text = pages.read("docs/MIGRATING.md").split("## What is accepted but gives other bytes")[0]
    for kind, is_found in (("cc65", True), ("asm", False)):
        for number, block in enumerate(re.findall(f"^```{kind}\n(.*?)^```$", text, re.M | re.S)):
            pages.put(f"{folder}/a.s", block)
            for name in re.findall(r'\.inc(?:lude|bin)\s+"([^"]+)"', block):
                os.makedirs(os.path.dirname(f"{folder}/{name}"), exist_ok=True)
                pages.put(f"{folder}/{name}", "")
            found = check.findings([f"{folder}/a.s"])
            tries.check(f"block {number + 1} of {kind}", bool(found) == is_found, [check.said(it) for it in found] or block)


def searched(tries, folder):
    """Tests that the page's search finds what `check` finds."""
    command = re.search(r"```sh\n(grep.*?)```", pages.read("docs/MIGRATING.md"), re.S)[1]
    unseen = ("cheap-twice", "include-late", "incbin-file", "include-file", "zero-page-import", "in-scope", "processor", "macro-call", "form", "undocumented", "text", "quote", "colons")
    for name, text in CASES.items():
        if not name.startswith("script-") and name not in unseen:
            pages.put(f"{folder}/a.s", text.replace(" <", "") + "\n")
            tries.check(f"the search, {name}", pages.run(command, "/usr/bin", folder), text)


def told(tries, file, include):
    """Returns the line that bin65 reports for a habit, 0 if it accepts the file, None if it reports something else."""
    words = [it for folder in include for it in ("-I", folder)]
    ran = subprocess.run([tries.program, "ca65", *words, "-o", "/dev/null", file], capture_output=True, check=False)
    said = ran.stderr.decode("latin-1").strip().split("\n")[-1]
    if ran.returncode == 0:
        return 0
    match = re.fullmatch(r"(.*):(\d+): Error: (.*)", said)
    return int(match[2]) if match and match[1] == file and not match[3].startswith(ELSEWHERE) else None


def over(tries, files):
    """Tests files of the machine: nothing is found in files that bin65 accepts, and the line is found in those that it rejects."""
    wrong, count = [], 0
    for file in files:
        line = told(tries, file, [cc65_files.INCLUDES])
        if line is not None:
            lines = {it.line for it in check.findings([file]) if it.path == file}
            count += 1
            wrong += [f"{file}:{line}: {sorted(lines)[:5]}"] if (line in lines) != (line > 0) or (line == 0 and lines) else []
    tries.check(f"{count} files", not wrong and count, "\n".join(wrong))


def scripts(tries):
    """Tests that in each of cc65's scripts the line that bin65 reports is found."""
    for name in sorted(os.listdir(cc65_files.SCRIPTS)):
        file = f"{cc65_files.SCRIPTS}/{name}"
        ran = subprocess.run([tries.program, "ld65", "-C", file, "-o", "/dev/null", "/dev/null"], capture_output=True, text=True, check=False)
        match = re.match(rf"{re.escape(file)}:(\d+): ", ran.stderr)
        lines = {it.line for it in check.findings([file])}
        tries.check(name, int(match[1]) in lines if match else not lines, f"{ran.stderr} {sorted(lines)}")


def machine_sources():
    """Returns sources and include files of the machine, for any processor."""
    found = []
    for top in ("/usr/share", "/usr/include", "/usr/lib"):
        for folder, folders, names in os.walk(top):
            folders.sort()
            found += [f"{folder}/{it}" for it in sorted(names) if it.endswith((".s", ".asm", ".inc")) and "cc65" not in folder]
            if len(found) > 40 * OTHERS:
                break
    return [it for it in found if os.path.getsize(it) < 200000][:: max(1, len(found) // OTHERS)]


def trees(tries):
    """Tests the findings in small trees."""
    for name, (files, words, wanted) in TREES.items():
        with tempfile.TemporaryDirectory() as folder:
            for file, text in files.items():
                os.makedirs(os.path.dirname(f"{folder}/{file}"), exist_ok=True)
                pages.put(f"{folder}/{file}", text)
            found = json.loads(tries.work65("--json", *words.split(), folder=folder).stdout)
            said = " ".join(f"{it['file']}:{it['line']}:{it['habit']}" for it in found)
            tries.check(name, said == wanted, said)


def no_files(tries):
    """Tests pipes, devices, dangling links and unreadable folders: a message or silence, and the other files are checked."""
    with tempfile.TemporaryDirectory() as folder:
        os.chmod(folder, 0o755)
        os.mkdir(f"{folder}/src")
        os.mkfifo(f"{folder}/src/pipe.s")
        os.symlink("nowhere", f"{folder}/src/.#a.s")
        os.symlink("/dev/full", f"{folder}/src/full.s")
        pages.put(f"{folder}/src/a.s", "start lda #1\n")
        ran = tries.work65("src", folder=folder)
        tries.check("a pipe in a folder", (ran.returncode, ran.stdout.count("\n"), ran.stderr) == (1, 1, ""), ran)
        for name in ("src/pipe.s", "/dev/full"):
            ran = tries.work65(name, folder=folder)
            tries.check(name, (ran.returncode, ran.stdout, ran.stderr) == (1, "", f"work65: {name}: not a regular file\n"), ran)
        os.mkdir(f"{folder}/src/closed", 0)
        ran = tries.work65("src", folder=folder, user=65534 if os.geteuid() == 0 else None)
        said = "work65: src/closed: Permission denied\n"
        tries.check("a folder that can't be read", (ran.returncode, ran.stdout.count("\n"), ran.stderr) == (1, 1, said), ran)
        with open("/dev/full", "w", encoding="utf-8") as full:
            ran = tries.work65("src/a.s", folder=folder, stdout=full)
        tries.check("a full disk", (ran.returncode, ran.stderr) == (1, "work65: standard output: No space left on device\n"), ran)


def bad_input(tries):
    """Tests unreadable files, which are reported in one line, and files that are no text, which are checked."""
    with tempfile.TemporaryDirectory() as folder:
        os.mkdir(f"{folder}/empty")
        pages.put(f"{folder}/none.s", "")
        with open(f"{folder}/bytes.s", "wb") as it:
            it.write(bytes(range(256)) * 20)
        os.symlink("nowhere", f"{folder}/gone.s")
        for words, status in ((["nothing"], 1), (["empty"], 1), (["gone.s"], 1), ([], 2), (["--target", "zx", "none.s"], 2)):
            ran = tries.work65(*words, folder=folder)
            good = ran.returncode == status and "Traceback" not in ran.stderr and (status == 2 or ran.stderr.count("\n") == 1)
            tries.check(f"check {words}", good, ran.stderr)
        ran = tries.work65("none.s", folder=folder)
        tries.check("an empty file", ran.returncode == 0 and not ran.stdout + ran.stderr, ran)
        ran = tries.work65("bytes.s", folder=folder)
        tries.check("bytes that are no text", ran.returncode == 1 and not ran.stderr, ran.stderr)
        pages.put(f"{folder}/a.s", "start lda #1\n")
        ran = tries.work65("--json", "a.s", folder=folder)
        found = json.loads(ran.stdout)
        tries.check("JSON", [(it["file"], it["line"], it["habit"]) for it in found] == [("a.s", 1, "colon")], found)
        ran = tries.work65("a.s", folder=folder)
        tries.check("a line", ran.stdout == f"a.s:1: start: write a colon after the label (MIGRATING: {found[0]['heading']})\n", ran.stdout)
        tries.check("help", tries.work65("--help").returncode == 0)


def speed(tries):
    """Tests the speed: 50,000 lines in two CPU-seconds; twice that is allowed, since the machine may be busy."""
    lines = ["start:  lda     #1", "        sta     $2000,x         ; a comment", "        .byte   1, 2, 3", "n = 5", "", "; more"]
    text = "".join(f"{it.replace('1', str(at))}\n" for at in range(50000 // len(lines) + 1) for it in lines)
    with tempfile.TemporaryDirectory() as folder:
        pages.put(f"{folder}/a.s", text)
        before = resource.getrusage(resource.RUSAGE_CHILDREN).ru_utime
        tries.work65("a.s", folder=folder)
        took = resource.getrusage(resource.RUSAGE_CHILDREN).ru_utime - before
    print(f"check: 50,000 lines in {took:.1f} seconds")
    tries.check("speed", took < 4, took)


def main():
    tries = Tries(sys.argv[1])
    with tempfile.TemporaryDirectory() as folder:
        habits(tries, folder)
    page_parts(tries)
    with tempfile.TemporaryDirectory() as folder:
        pairs(tries, folder)
    with tempfile.TemporaryDirectory() as folder:
        searched(tries, folder)
    if cc65_files.is_there():
        over(tries, [f"{cc65_files.INCLUDES}/{it}" for it in sorted(os.listdir(cc65_files.INCLUDES))])
        scripts(tries)
    else:
        print("cc65 isn't installed: its files aren't looked at")
    over(tries, machine_sources())
    trees(tries)
    no_files(tries)
    bad_input(tries)
    speed(tries)
    print(f"{tries.passed} passed, {tries.failed} failed")
    sys.exit(tries.failed > 0)


main()
