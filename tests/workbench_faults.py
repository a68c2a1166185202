#!/usr/bin/env python3
"""Tests `work65 faults` and `work65 explain`: each error of a source is reported as bin65 reports it for a source that has only this error;
an error that follows from a removed line is marked; each message of docs/MESSAGES.md is explained by its paragraph; and for each line
of its table of causes the right cause is named.

usage: workbench_faults.py BIN65. The last line is 'N passed, M failed'."""
import glob
import os
import re
import signal
import subprocess
import sys
import tempfile
import time

import pages
import results

sys.path.insert(0, f"{pages.ROOT}/workbench")

from work65 import pages as own_pages  # noqa: E402
from work65.commands import explain  # noqa: E402
from work65.diagnosing import bad_arguments as arguments  # noqa: E402
from work65.diagnosing.message import message_of  # noqa: E402

WORK65 = f"{pages.ROOT}/workbench/work65.sh"
# Lines that are rejected, each for itself; the expected message follows a |.
REFUSED = """ldaa #1
.define WIDE 40
loop dex
lda #(1+2
.byte 1,,2
.segment CODE
lda (1+2)*3
.byte .strlen("A")
.byte "open
.align 3
.res nowhere
lda ($20)
stx $10,x
.popseg
jmp unknown
.byte 300
lda #256
.include "none.inc"
.incbin "none.bin"
.error "stop"
lda #$1G
.byte 1 \\ 2
one: two: rts
.import a b
.macpack generic
bra here
x = 5
.if unknown > 1|.endif
.repeat 99999|.endrepeat
.endproc
lda nowhere::name
.asciiz "a", "b\""""
ARGUMENTS = (
    ("ca65 -t c64 a.s", "-t c64"[:2]), ("ld65 a.o", "-C"), ("ca65", "source"), ("ca65 a.s b.s", "two"), ("ca65 -o a -o b a.s", "-o"),
    ("ar65 a l.lib", "r, d, t"), ("ca65 -D a a.s", "a is no name"), ("ca65 -D N=0x10 a.s", "0x10"), ("ca65 --help", "help"),
    ("cl65 a.s", "ca65, ld65"), ("ar65 r", "library"), ("ca65 -o", "-o"),
)


# The output of `explain` for lines of a source, if the page's paragraph has a list after it, or the line shows the cause.
TOLD = (
    (1, "bad character", "these: - a cheap label whose name begins with a digit, as @1: write @loop; - a '"),
    (2, "statement not understood", "It is: a number or a name where a string is wanted."),
    (6, "too many arguments", "The macro m has 1 parameter, and the call has 2 arguments. ca65. A macro call has more"),
    (10, "too many arguments", "It is in the lines of the macro n, which is called here. ca65. A macro call has more"),
)


class Tries:
    """Counts of passed and failed checks."""

    def __init__(self, program):
        self.program = os.path.abspath(program)
        self.passed = self.failed = 0

    def check(self, name, is_so, found=""):
        self.passed, self.failed = self.passed + bool(is_so), self.failed + (not is_so)
        if not is_so:
            print(f"{name}: {found}")

    def work65(self, *words, folder, given=None):
        how = {**os.environ, "BIN65": self.program, "TMPDIR": folder, "PATH": f"{folder}/tools:{os.environ['PATH']}"}
        return subprocess.run(["sh", WORK65, *words], cwd=folder, env=how, input=given, capture_output=True, text=True, check=False)

    def alone(self, folder, text):
        """Returns bin65's messages for a source."""
        pages.put(f"{folder}/a.s", text)
        return subprocess.run([self.program, "ca65", "-o", "", "a.s"], cwd=folder, capture_output=True, text=True, check=False).stderr


def all_faults(tries):
    """A source of many faults gives each that one alone gives; thirty of them within a second."""
    lines = REFUSED.split("\n")
    with tempfile.TemporaryDirectory() as folder:
        wanted = []
        for at in range(len(lines)):
            kept = [it if other == at else re.sub(r"[^|]+", " nop", it) for other, it in enumerate(lines)]
            wanted.append(tries.alone(folder, "\n".join(kept).replace("|", "\n") + "\n"))
        wanted = [it for it in wanted if it]
        tries.check("lines that are refused", len(wanted) == len(lines), len(wanted))
        pages.put(f"{folder}/a.s", "\n".join(lines).replace("|", "\n") + "\n")
        begun = results.processor_seconds()
        ran = tries.work65("faults", "a.s", folder=folder)
        took = results.processor_seconds() - begun
        print(f"faults: {len(lines)} faults in {took:.1f} seconds")
        tries.check("all faults", ran.stdout == "".join(wanted) and ran.returncode == 1, f"{ran.stdout}{ran.stderr}    wanted\n{''.join(wanted)}")
        tries.check("the time of faults", took < 4, took)
        tries.check("the source is as it was", open(f"{folder}/a.s", encoding="utf-8").read() == "\n".join(lines).replace("|", "\n") + "\n")
        tries.check("nothing is left behind", os.listdir(folder) == ["a.s"], os.listdir(folder))


FOLLOWING = (
    (".define WIDE 40\n lda #WIDE\n", [None, 1]), (".struct P\nx1 .byte\n.endstruct\n lda P::x1\n .byte oops\n", [None, 1, None]),
    ("n = 1 +\n .byte n\n.if n\n.endif\n", [None, 1, 1]), (".macro add value\n .macro in\n .endmacro\n", [None]),
    (".repeat 2, i\n .byte 100 * (i + 2)\n .byte oops(\n.endrepeat\n nop\n", [None]), (".proc p\n lda #\n", [None, None]),
    (".proc p\n.if 1\n nop\n .byte oops(\n", [None, None, None]),
    (".if .defined(A)\n nop\n.else\n foo bar\n.endif\n", [None]),
    # Names of the branches that a refused condition doesn't take, of a refused macro, repeat and import, and of a second .define.
    (".if .defined(A)\nn = 1\n.elseif .defined(B)\nm = 2\n.endif\n lda #n\n lda #m\n", [None, 1]),
    (".macro load a1, a1\n lda #a1\n.endmacro\n load 5\n nop\n", [None, 1]),
    (".repeat 2\nl:\n.byte oops(\n.endrepeat\n jmp l\n", [None, 1]), (".import f: far\n jsr f\n", [None, 1]),
    (".macro table name, what\nname: .byte .strlen(what)\n.endmacro\n table t1, \"ab\"\n lda t1\n lda t2\n", [None, 4, None]),
    (".define W 1\n lda #W\n.undefine W\n.define W 2\n", [None, 1, 1, None]),
)
# Tests a name that is defined twice: the reported lines, and that the next lines are checked.
TWICE = (
    ("lab: nop\nlab: rts\n lda nowhere\n foo\n", ["2 defined twice: lab", "3 undefined name: nowhere", "4 statement not understood"]),
    ("lab:\n nop\nlab:\n rts\n foo\n", ["3 defined twice: lab", "5 statement not understood"]),
    ("n = 1\nn = 2\n foo\n", ["2 defined twice: n", "3 statement not understood"]),
    ("lab: nop\nlab: foo\n foo\n", ["2 defined twice: lab", "2 statement not understood", "3 statement not understood"]),
    (".proc p\n.endproc\n.proc p\n foo\n.endproc\n.scope s\n.endscope\n.scope s\nq: rts\n.endscope\n.scope\n jmp q\n.endscope\n",
     ["3 scope defined twice: p", "4 statement not understood", "8 scope defined twice: s", "12 undefined name: q"]),
    (".macro m\n nop\n.endmacro\n.macro m a1\n foo a1\n.endmacro\n m\n foo\n", ["4 macro defined twice", "8 statement not understood"]),
)


def following(tries):
    """A fault that follows from a line left out names that line; others name none."""
    for text, wanted in FOLLOWING:
        with tempfile.TemporaryDirectory() as folder:
            pages.put(f"{folder}/a.s", text)
            said = tries.work65("faults", "a.s", folder=folder).stdout.splitlines()
            found = [int(match[1]) if (match := re.search(r"\(follows from a\.s:(\d+)\)$", it)) else None for it in said]
            tries.check(f"what follows in {text!r}", found == wanted, said)


def twice(tries):
    """Tests that it continues after a name that is defined twice, and that lines judged separately are reported where bin65 reports them."""
    for text, wanted in (*TWICE, ALONE):
        with tempfile.TemporaryDirectory() as folder:
            pages.put(f"{folder}/a.s", text)
            ran = tries.work65("faults", "a.s", folder=folder)
            said = [it.replace("a.s:", "").replace(": Error:", "") for it in ran.stdout.splitlines()]
            tries.check(f"twice in {text!r}", said == wanted and not ran.stderr, ran.stdout + ran.stderr)


# After a few faults lines are judged alone: those of branches that aren't taken only if they can't be split into tokens.
ALONE = (" foo 1\n foo 2\n foo 3\n foo 4\n.if 0\n foo 5\n lda #$1G\n.endif\n lda #$2G\n.macro m\n foo 6\n.endmacro\n.end\n foo 7\n"
         " lda #$3G\n",
         [*(f"{it} statement not understood" for it in (1, 2, 3, 4)), "7 bad number", "9 bad number"])
# Lines with one fault each, of which N is a number: by their form, by a value, by names that nothing defines or a line left out
# would have defined. Every 50th hangs on the value of a name. The others are right.
KINDS = (
    ("statement not understood", " fooN #1"), ("undefined name: noN", " lda noN"), ("statement not understood", ".define DN 5"),
    ("out of range", " .byte 300 + N"), ("no such addressing form", " stx first,x ; N"), ("undefined name: moN", " .word moN + 1, 5"),
    ("bad character", " lda #'aN"), ("bad alignment", "lN: .align 3 + N * 2"), ("undefined name: DM", " ldx #DM"),
)
VALUE = ("out of range", " lda #BIG + N")
RIGHT = (" lda #5", " sta first", " .word first + 1", "q: jmp first", " bne :+\n: dex", ".scope\nlocal: jmp local\n.endscope")


def many(tries):
    """A thousand faults in 20,000 lines within ten seconds, each as bin65 says it of its line; what is in branches that aren't
    taken isn't said; that there are more is."""
    wanted, lines = set(), ["first: nop", "BIG = 300"]
    for number in range(1000):
        kind = VALUE if number % 50 == 49 else KINDS[number % len(KINDS)]
        defined = number // len(KINDS) * len(KINDS) + 2
        said, line = (it.replace("N", str(number)).replace("M", str(defined if defined % 50 != 49 else 2)) for it in kind)
        lines += [it.replace("q", f"q{number}") for it in RIGHT]
        lines += [".if 0", " lda nowhere", " foo", ".endif", f"; {number}", *["; more"] * 6, line]
        wanted.add(f"a.s:{sum(it.count(chr(10)) + 1 for it in lines)}: Error: {said}")
    with tempfile.TemporaryDirectory() as folder:
        pages.put(f"{folder}/a.s", "\n".join(lines) + "\n")
        begun = results.processor_seconds()
        ran = tries.work65("faults", "a.s", folder=folder)
        took = results.processor_seconds() - begun
        found = [re.sub(r" \(follows from .*\)", "", it) for it in ran.stdout.splitlines()]
        print(f"faults: {len(found)} faults in {sum(it.count(chr(10)) + 1 for it in lines)} lines in {took:.1f} seconds")
        tries.check("a thousand faults", wanted == set(found) and not ran.stderr, f"{sorted(wanted ^ set(found))[:9]} {ran.stderr}")
        tries.check("the time of a thousand faults", took < 20, took)
        follows = [it for it in ran.stdout.splitlines() if "undefined name: D" in it]
        tries.check("what follows of a thousand", follows and all("follows from a.s:" in it for it in follows), follows[:3])
        pages.put(f"{folder}/b.s", "".join(f" lda no{it}\n" for it in range(1100)))
        ran = tries.work65("faults", "b.s", folder=folder)
        said = "work65: b.s: there are more than 1000 errors; only the first 1000 are shown\n"
        tries.check("more faults", (ran.stdout.count("\n"), ran.stderr, ran.returncode) == (1000, said, 1), ran.stdout[-200:] + ran.stderr)


def includes(tries):
    """Faults of included files come after those of the source, by the names that bin65 says; a whole source has none."""
    with tempfile.TemporaryDirectory() as folder:
        os.makedirs(f"{folder}/src/inc")
        pages.put(f"{folder}/src/a.s", ' .include "inc/b.inc"\n .include "../c.inc"\n oops 1\n .incbin "a.bin"\n')
        pages.put(f"{folder}/src/inc/b.inc", " nop\n oops 2\n")
        pages.put(f"{folder}/c.inc", " oops 3\n oops 4\n")
        pages.put(f"{folder}/src/a.bin", "data")
        ran = tries.work65("faults", "src/a.s", folder=folder)
        wanted = ["src/a.s:3", "src/inc/b.inc:2", "src/../c.inc:1", "src/../c.inc:2"]
        tries.check("faults of includes", ran.stdout == "".join(f"{it}: Error: statement not understood\n" for it in wanted), ran.stdout + ran.stderr)
        whole = tries.work65("faults", f"{folder}/src/a.s", "-I", f"{folder}", folder=folder)
        tries.check("whole paths", whole.stdout.count("statement not understood") == 4 and f"{folder}/src/a.s:3:" in whole.stdout, whole.stdout)
        pages.put(f"{folder}/good.s", ".ifdef N\n nop\n.endif\n lda #N\n")
        pages.put(f"{folder}/ü.s", '.include "ö.inc"\n oops\n')
        pages.put(f"{folder}/ö.inc", " oops\n")
        said = tries.work65("faults", "ü.s", folder=folder).stdout
        wanted = "".join(f"{it}: Error: statement not understood\n" for it in ("ü.s:2", "ö.inc:1"))
        tries.check("names outside ASCII", said == wanted, said)
        good = tries.work65("faults", "good.s", "-D", "N=4", folder=folder)
        tries.check("a source without a fault", good.returncode == 0 and not good.stdout + good.stderr, good)
        bad = tries.work65("faults", "none.s", folder=folder)
        tries.check("no source", bad.returncode == 1 and bad.stderr == "work65: none.s: no such file\n", bad.stderr)
        lost = tries.work65("faults", "good.s", "--bin65", "/none", folder=folder)
        tries.check("no bin65", lost.returncode == 1 and lost.stderr.count("\n") == 1, lost.stderr)
        tries.check("a usage fault", tries.work65("faults", folder=folder).returncode == 2)


def heeding():
    """Signals are heeded, also where whoever runs the tests ignores them."""
    for it in (signal.SIGINT, signal.SIGTERM):
        signal.signal(it, signal.SIG_DFL)


def interrupted(tries):
    """After Ctrl-C and SIGTERM nothing is left of the copy."""
    for sent in (signal.SIGINT, signal.SIGTERM):
        with tempfile.TemporaryDirectory() as folder:
            pages.put(f"{folder}/a.s", "n = 1\n" + " lda #n * 300\n" * 9000)
            how = {**os.environ, "BIN65": tries.program, "TMPDIR": folder}
            ran = subprocess.Popen(["sh", WORK65, "faults", "a.s"], cwd=folder, env=how, stdout=subprocess.PIPE, stderr=subprocess.PIPE,
                                   start_new_session=True, preexec_fn=heeding)
            deadline = time.monotonic() + 20
            # The copy is under way once something is in its folder.
            while not glob.glob(f"{folder}/work65-*/*") and time.monotonic() < deadline:
                time.sleep(0.02)
            os.kill(ran.pid, sent)
            said = ran.communicate(timeout=30)
            tries.check(sent.name, os.listdir(folder) == ["a.s"] and not said[0] + said[1], (os.listdir(folder), said))


def explained(tries):
    """Each message that the page shows is explained by the paragraph of its heading."""
    page = pages.read("docs/MESSAGES.md").split("\n## Texts of your own")[0]
    entries = own_pages.entries()
    for title, text in pages.sections(page, "###"):
        for said in re.findall(r"^.*?: (?:Error|Warning): .*$", text, re.M):
            message = message_of(said)
            found = own_pages.entry_for(message.text, entries) if message else None
            if found is None or found.heading != title:
                continue
            tries.check(f"explain {said}", any(it.strip() for it in explain.explained(message, entries)), said)
            break
        else:
            tries.check(f"explain {title}", False, "no message of it is explained by it")


def causes(tries):
    """Each refused source of the page's table gets the row's own cause."""
    for entry in own_pages.entries():
        for what, source in entry.rows:
            lines = source.split("\n")
            with tempfile.TemporaryDirectory() as folder:
                said = tries.alone(folder, source + "\n")
                at = int(said.split(":")[1]) - 1
            found = explain.rows_for(lines, at, entry)
            tries.check(f"cause of {source!r}", own_pages.plain(what) in found, found)


def commands(tries):
    """explain keeps the status of the command after --, passes its output, and reads standard input."""
    with tempfile.TemporaryDirectory() as folder:
        pages.tools_of(tries.program, f"{folder}/tools")
        pages.put(f"{folder}/a.s", " nop\nloop dex\n")
        ran = tries.work65("explain", "--", "bin65", "ca65", "a.s", folder=folder)
        good = ran.returncode == 1 and not ran.stdout and "2 | loop dex" in ran.stderr and "a label without its colon" in ran.stderr
        tries.check("explain a command", good, ran.stdout + ran.stderr)
        ran = tries.work65("explain", "--", "sh", "-c", "echo out; echo err >&2; exit 7", folder=folder)
        tries.check("status and streams", (ran.returncode, ran.stdout, ran.stderr) == (7, "out\n", "err\n"), ran)
        ran = tries.work65("explain", folder=folder, given="a.s:2: Error: statement not understood\nother\n")
        tries.check("standard input", ran.returncode == 0 and "2 | loop dex" in ran.stdout and ran.stdout.endswith("other\n"), ran.stdout)
        pages.put(f"{folder}/b.s", ".macro m\n ldaa #1\n.endmacro\n m\n.repeat 2\n nop\n.byte oops(\n.endrepeat\n")
        ran = tries.work65("explain", folder=folder, given="b.s:4: Error: statement not understood\n")
        tries.check("a macro's lines", "It is in the lines of the macro m, which is called here." in ran.stdout, ran.stdout)
        ran = tries.work65("explain", folder=folder, given="b.s:8: Error: statement not understood\n")
        tries.check("a repeat's lines", "It is in one of the lines 5 to 8, which are repeated." in ran.stdout, ran.stdout)
        pages.put(f"{folder}/c.s", " lda #'ab\n .asciiz 5\n.macro m a1\n nop\n.endmacro\n m 1, 2\n.macro n\n m 1, 2\n.endmacro\n n\n")
        for line, text, wanted in TOLD:
            ran = tries.work65("explain", folder=folder, given=f"c.s:{line}: Error: {text}\n")
            words = " ".join(ran.stdout.split())
            tries.check(f"explain {text} of line {line}", wanted in words and re.search(r"[.)]$", words), ran.stdout)
        pages.put(f"{folder}/d.inc", ".macro farcall target\n lda #<.bank(target)\n jsr target\n.endmacro\n")
        pages.put(f"{folder}/d.s", '.include "d.inc"\nfoo: rts\n farcall foo\n farcall foo\n')
        ran = tries.work65("explain", folder=folder, given="d.s:3: Error: statement not understood\n")
        good = "It is in the lines of the macro farcall, which is called here." in ran.stdout and "its line d.inc:2: .bank" in ran.stdout
        tries.check("a macro of an included file", good, ran.stdout)
        ran = tries.work65("faults", "d.s", folder=folder)
        good = "".join(f"d.s:{it}: Error: statement not understood\n" for it in (3, 4))
        tries.check("an error that follows from no other", ran.stdout == good, ran.stdout)
        pages.put(f"{folder}/u.s", ".import far, near\n nop\n lda far\n jsr near+1\n")
        pages.put(f"{folder}/u.cfg", "MEMORY { M: start = 0, size = 9; }\nSEGMENTS { CODE: load = M; }\n")
        subprocess.run([tries.program, "ca65", "u.s"], cwd=folder, check=True)
        ran = tries.work65("explain", "--", "bin65", "ld65", "-C", "u.cfg", "u.o", folder=folder)
        good = "far is used in u.s:3 (module u.o).\n" in ran.stderr and "near is used in u.s:4 (module u.o).\n" in ran.stderr
        tries.check("an unresolved name", good, ran.stderr)
        ran = tries.work65("explain", "--", "no-such-command", folder=folder)
        tries.check("no such command", ran.returncode == 127 and ran.stderr.count("\n") == 1, ran.stderr)
        ran = tries.work65("explain", "--", "bin65", "ca65", "-t", "c64", "a.s", folder=folder)
        tries.check("bad arguments", "It is: -t is an option that isn't here." in ran.stderr, ran.stderr)
        for line, wanted in ARGUMENTS:
            said = subprocess.run([tries.program, *line.split()], cwd=folder, capture_output=True, text=True, check=False).stderr
            why = arguments.why_bad(line.split())
            tries.check(f"why {line}", said == "bin65: Error: bad arguments\n" and why is not None and wanted in why, (said, why))


def main():
    tries = Tries(sys.argv[1])
    for part in (all_faults, following, twice, many, includes, interrupted, explained, causes, commands):
        part(tries)
    print(f"{tries.passed} passed, {tries.failed} failed")
    sys.exit(tries.failed > 0)


main()
