"""Tests `list --cycles`, `pages`, `unused` and `banks` over builds of cc65, for
workbench_cycles.py: by ld65's debug file they say what they say over a build of bin65 of the same
sources."""
import json
import os
import pathlib
import random
import re
import shutil
import subprocess
import sys
from typing import Any, Dict, List, Sequence, Tuple

import cycle_rows as known
import pages
import workbench_builds as builds

KEYS = ("file", "line", "module", "segment", "address", "size", "bytes", "cycles", "text")
COMMANDS = ("pages", "unused", "list --json", "list --cycles --json")
# Macros in macros with arguments and local names, an included file, a repeat, and two modules.
MACROS = {
    "main.s": """        .include "inc/m.inc"
        .import other, limit
        .export start, table
        .zeropage
pointer: .res   2
        .code
.proc start
        ldx     #<limit
loop:   copy    table, other
@again: dex
        beq     @again
        put     buffer + 1
        pointed table
        lda     (pointer),y
        jmp     start
.endproc
.scope tables
table:  .byte   1, 2
inner:  .word   table, ::table
.endscope
table:  .res    $F8, 1
        .repeat 3
        .byte   3
        .endrepeat
        .addr   tables::inner - 1
        .bss
buffer: .res    3
END = buffer + 2
last:   .res    END - buffer
""",
    "inc/m.inc": """.macro put where
        sta     where
.endmacro
.macro copy from, to
        .local  here
here:   lda     from,x
        put     to
        bne     here
.endmacro
.macro pointed name
        lda     #<name
        sta     pointer
        lda     #>name
        sta     pointer + 1
.endmacro
shared: lda     #1
        rts
""",
    "second.s": """        .export other, limit
        .include "inc/m.inc"
limit = 5
        .data
other:  .byte   1
alone:  .byte   2
        .segment "CODE"
.proc used
        jsr     shared
.proc inner
        nop
        rts
.endproc
.endproc
""",
}
DATA = "RODATA:   load = ROM, type = ro;\n    DATA:     load = ROM, type = rw;"
PLACED = ("RODATA:   load = ROM, type = ro;", DATA)
# Runs the commands over each text of a list in this process, and counts the runs.
MUTATED = """import contextlib, io, json
from work65.main import run
from work65.problem import Problem
count = 0
for text in json.load(open("texts")):
    with open("b.dbg", "w", encoding="latin-1") as file:
        file.write(text)
    for line in ("pages", "unused -C a.cfg", "banks -C a.cfg", "list --cycles"):
        with contextlib.redirect_stdout(io.TextIOWrapper(io.BytesIO())):
            try:
                run([*line.split(), "--dbgfile", "b.dbg"])
            except Problem as problem:
                assert problem.status == 2 and str(problem) and "\\n" not in str(problem)
        count += 1
print(count, "runs")
"""
C64 = """        .forceimport __STARTUP__
        .import pushax, incsp2
        .export _main
        .include "zeropage.inc"
        .code
.proc _main
        lda     #1
        sta     ptr1
        jsr     pushax
        jmp     incsp2
.endproc
unused: lda     (ptr1),y
        .constructor init
init:   rts
"""


def built(trial: Any, files: Dict[str, str], script: str, members: Tuple[str, ...] = ()) -> str:
    """Builds sources by cc65 with debug information. Returns the folder."""
    folder, objects = trial.folder({**files, "a.cfg": script}), []
    os.makedirs(f"{folder}/lib", exist_ok=True)
    for name in sorted(it for it in files if it.endswith(".s")):
        made = os.path.basename(name)[:-2] + ".o"
        tool(folder, "ca65", "-g", "-o", made, name)
        objects += [] if name in members else [made]
    if members:
        tool(folder, "ar65", "r", "l.lib", *(os.path.basename(it)[:-2] + ".o" for it in members))
        objects.append("l.lib")
    tool(folder, "ld65", "-C", "a.cfg", "-o", "a.bin", "--dbgfile", "a.dbg", *objects)
    return str(folder)


def tool(folder: str, *words: str) -> None:
    """Runs a tool of cc65."""
    ran = subprocess.run(words, cwd=folder, capture_output=True, text=True, check=False)
    if ran.returncode:
        raise AssertionError(ran.stderr)


def said_of(trial: Any, folder: str, command: str, *words: str) -> List[Any]:
    """Runs work65. Returns its lines, or those of a listing, in an order of their own. A local name
    of a macro has no number in a debug file."""
    status = int(command == "banks")
    said = builds.work65(trial.program, folder, *command.split(), *words, status=status).stdout
    said = re.sub(r"\?\d+", "", said)
    if not command.startswith("list"):
        return sorted(said.splitlines())
    values = json.loads(said)
    lines = [[it[key] for key in KEYS] for it in values["lines"]]
    return [*sorted(lines), *sorted(list(it.values()) for it in values["procedures"])]


def same(trial: Any) -> None:
    """The same lines as over a build of bin65."""
    crossing = {"a.s": known.CROSSING}
    rom = known.script("$80F0").replace(*PLACED)
    members = ("lib/a.s", "lib/b.s")
    rows: List[Tuple[str, Dict[str, str], str, Tuple[str, ...]]] = [
        ("crossing", crossing, known.script("$80F0"), ()),
        ("pointers", {"a.s": known.POINTERS}, known.script("$8000"), ()),
        ("unused", known.UNUSED, known.script("$8000"), members),
        ("macros", MACROS, rom, ()),
        ("banked", {"a.s": known.BANKED}, known.BANKS, ()),
    ]
    for body in known.SUMS:
        lines = [it if ":" in it else f" {it}" for it in body.splitlines()]
        text = "\n".join([".proc p", *lines, ".endproc", ""])
        rows.append((f"the sum of {body}", {"a.s": text}, known.script("$8000"), ()))
    for name, files, script, linked in rows:
        folder = built(trial, files, script, linked)
        sources = sorted(it for it in files if it.endswith(".s") and it not in linked)
        words = ["-C", "a.cfg", *sources, *(["--library", "l.lib=lib"] if linked else [])]
        for command in (*COMMANDS, *(["banks"] if name == "banked" else [])):
            wanted = said_of(trial, folder, command, *words)
            said = said_of(trial, folder, command, "--dbgfile", "a.dbg", "-C", "a.cfg")
            trial.same(f"--dbgfile: {command}: {name}", said, wanted)
            trial.results.check(f"--dbgfile: {command}: {name}: lines", bool(wanted), wanted)


def attributes(trial: Any) -> None:
    """Banks by attributes of ld65's config, an area whose size it computes, and an image."""
    script = known.BANKS.replace("size = $4000; # bank 1: pictures", "size = $4000, bank = 1;")
    script = script.replace("size = $2000; # bank 3", "size = $8000 - $6000, bank = 3;")
    folder = built(trial, {"a.s": known.BANKED}, script)
    words = ("banks", "--dbgfile", "a.dbg", "-C", "a.cfg")
    trial.same("bank = 1", trial.run(folder, *words, status=1), known.BANKED_TEXT)
    os.rename(f"{folder}/a.bin", f"{folder}/b.bin")
    said = trial.run(folder, *words, "--image", "b.bin", status=1)
    trial.same("--dbgfile --image", said, known.BANKED_TEXT)
    os.rename(f"{folder}/b.bin", f"{folder}/a.bin")
    os.mkdir(f"{folder}/below")
    words = ("banks", "--dbgfile", "../a.dbg", "-C", "../a.cfg")
    said = trial.run(f"{folder}/below", *words, status=1).replace("../a.s", "a.s")
    trial.same("relative to the debug file", said, known.BANKED_TEXT)


def chained(trial: Any) -> None:
    """A label that only a long chain of constants names counts as referred to."""
    chain = "".join(f"X{it + 1} = X{it} + 1\n" for it in range(1200))
    text = f"start: jmp X1200\nthere: .res 2\nlost: .res 1\nX0 = there\n{chain}"
    folder = built(trial, {"a.s": text}, known.script("$8000"))
    values = json.loads(trial.run(folder, "unused", "--json", "--dbgfile", "a.dbg"))
    names = [it["name"] for it in values["not_referred_to"]]
    trial.same("--dbgfile: a chain of constants", names, ["lost"])


def with_library(trial: Any) -> None:
    """A program for the C64, whose library has no debug information, and one in C."""
    folder = trial.folder({"a.s": C64, "c.c": "int x;\nint main(void) { x = 3; return x; }\n"})
    tool(folder, "ca65", "-g", "-t", "c64", "a.s")
    tool(folder, "ld65", "-C", "c64.cfg", "-o", "a.prg", "--dbgfile", "a.dbg", "a.o", "c64.lib")
    said = trial.run(folder, "unused", "--dbgfile", "a.dbg").splitlines()
    wanted = ["unused           label     2     CODE     a.o", "2 bytes aren't referred to: CODE 2"]
    wanted.append("c64.lib: not seen: its lines; all exports count as referred to")
    trial.same("c64.lib: unused", [it for it in said if it in wanted], wanted)
    said = trial.run(folder, "list", "--cycles", "--dbgfile", "a.dbg").splitlines()
    trial.results.check("c64.lib: list", said[2].lstrip() == "; _main: 14 cycles", said)
    trial.run(folder, "pages", "--dbgfile", "a.dbg")
    if shutil.which("cl65"):
        tool(folder, "cl65", "-g", "-t", "c64", "-o", "c.prg", "c.c", "-Wl", "--dbgfile,c.dbg")
        said = trial.run(folder, "unused", "--dbgfile", "c.dbg")
        trial.results.check("a program in C", "\nc.o: not seen: its lines" in said, said)
        tool(folder, "cc65", "-g", "-t", "c64", "c.c")
        tool(folder, "ca65", "-g", "-t", "c64", "c.s")
        tool(folder, "ld65", "-C", "c64.cfg", "-o", "c.prg", "--dbgfile", "c.dbg", "c.o", "c64.lib")
        said = trial.run(folder, "list", "--cycles", "--dbgfile", "c.dbg")
        is_so = "; _main: " in said and "int main" not in said
        trial.results.check("a program in C with its assembler source", is_so, said)


def refused_at(trial: Any, folder: str, name: str, words: Sequence[str]) -> None:
    """One line, status 2, nothing written."""
    before = set(os.listdir(folder))
    ran = builds.work65(trial.program, folder, *words, status=2)
    is_one = ran.stderr.count("\n") == 1 and ran.stderr.startswith("work65: ") and not ran.stdout
    is_so = is_one and set(os.listdir(folder)) == before
    trial.results.check(f"--dbgfile: refused: {name}", is_so, ran.stdout + ran.stderr)


def refused(trial: Any) -> None:
    """What isn't as it was, isn't there or has no meaning."""
    folder = built(trial, MACROS, known.script("$80F0").replace(*PLACED))
    text = builds.text_of(f"{folder}/a.dbg")
    cut = {"cut": text[: len(text) * 2 // 3], "empty": "", "other": "MODULES\n"}
    cut["kinds"] = re.sub(r"^scope.*\n", "", text, flags=re.M)
    for name, part in cut.items():
        pages.put(f"{folder}/{name}", part)
    words = ["list --cycles", "pages", "unused", "banks"]
    lines = [f"{it} --dbgfile {name}" for it in words for name in (*cut, "none", "/dev/null")]
    lines += ["pages", "pages -C a.cfg", "pages main.s", "pages --dbgfile a.dbg main.s"]
    lines += ["pages --dbgfile a.dbg -I inc"]
    lines += ["banks --dbgfile a.dbg", "banks --dbgfile a.dbg -C a.cfg"]
    lines += ["pages --dbgfile a.dbg --image none", "unused --dbgfile a.dbg --entry none"]
    lines += ["unused --dbgfile a.dbg -C none", "list -o out --dbgfile a.dbg --image main.s"]
    for line in lines:
        refused_at(trial, folder, line, line.split())
    image = pathlib.Path(f"{folder}/a.bin").read_bytes()
    for name, data in (("a short image", image[:-9]), ("another image", bytes(len(image)))):
        pathlib.Path(f"{folder}/a.bin").write_bytes(data)
        refused_at(trial, folder, name, ["pages", "--dbgfile", "a.dbg"])
    os.remove(f"{folder}/a.bin")
    refused_at(trial, folder, "no image", ["list", "--cycles", "--dbgfile", "a.dbg"])
    pathlib.Path(f"{folder}/a.bin").write_bytes(image)
    trial.run(folder, "pages", "--dbgfile", "a.dbg")
    os.utime(f"{folder}/second.s", (5, 5))
    refused_at(trial, folder, "a later source", ["pages", "--dbgfile", "a.dbg"])
    os.remove(f"{folder}/inc/m.inc")
    refused_at(trial, folder, "no included file", ["pages", "--dbgfile", "a.dbg"])


def mutated(trial: Any) -> None:
    """Debug files with random changes give a result or one message."""
    folder = built(trial, MACROS, known.script("$80F0").replace(*PLACED))
    text, chosen = builds.text_of(f"{folder}/a.dbg"), random.Random(65)
    texts = [changed(text, chosen) for _ in range(500)]
    pages.put(f"{folder}/texts", json.dumps(texts))
    words = [sys.executable, "-c", MUTATED]
    how = builds.environment(trial.program)
    ran = subprocess.run(words, cwd=folder, env=how, capture_output=True, text=True, check=False)
    said = ran.stdout + ran.stderr
    is_so = ran.stdout.endswith("2000 runs\n")
    trial.results.check("--dbgfile: 500 mutations", is_so, said[-3000:])


def changed(text: str, chosen: random.Random) -> str:
    """Changes a number, a character or a line of a text at random."""
    kind, at = chosen.randrange(4), chosen.randrange(len(text))
    numbers = list(re.finditer(r"(?<==)(0x[0-9A-F]+|\d+)|(?<=\+)\d+", text))
    if kind < 2:
        it, value = chosen.choice(numbers), chosen.choice((0, 1, 2, 5, 9, 17, 40, 300, 99999))
        return text[: it.start()] + str(value) + text[it.end() :]
    if kind == 2:
        return text[:at] + chosen.choice('0,="+x\t\n\xff') + text[at + 1 :]
    lines = text.splitlines(keepends=True)
    one, other = chosen.randrange(len(lines)), chosen.randrange(len(lines))
    lines[one] = re.sub(r"(?<=id=)\d+", re.findall(r"id=(\d+)|$", lines[one])[0], lines[other])
    return "".join(lines)


def documented(trial: Any) -> None:
    """The output in docs/WORKBENCH.md for example/nes."""
    folder = trial.folder({"none": ""})
    shutil.copytree(f"{pages.ROOT}/example/nes", f"{folder}/nes")
    shutil.copy(f"{pages.ROOT}/example/nes.cfg", folder)
    objects = [f"{it}.o" for it in ("controller", "main", "player", "tiles")]
    for name in objects:
        tool(folder, "ca65", "-g", "-o", name, f"nes/{name[:-2]}.s")
    tool(folder, "ld65", "-C", "nes.cfg", "-o", "nes.nes", "--dbgfile", "nes.dbg", *objects)
    said = trial.run(folder, "pages", "--dbgfile", "nes.dbg")
    shown = f"```\n$ work65 pages --dbgfile nes.dbg\n{said}```\n"
    is_so = said.count("\n") > 3 and shown in pages.read("docs/WORKBENCH.md")
    trial.results.check("WORKBENCH: over a cc65 build", is_so, said)


def over_cc65(trial: Any) -> None:
    """All of these tests."""
    for test in (same, attributes, chained, with_library, refused, mutated, documented):
        test(trial)
