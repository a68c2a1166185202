"""Shared by the tests of work65's list, labels, debug, deps and size: programs, and the results of work65 and of cc65's tools for them.

The programs are those of example/, and one of four modules that has macros, repeats, files, scopes and conditions in one
another, where bin65 and cc65 mean the same."""
import glob
import os
import shutil
import subprocess
import sys
from dataclasses import dataclass, field
from typing import Dict, List, Optional

import pages

TRICKS: Dict[str, str] = {
    "main.s": """; Lines of all kinds, one in another.
        .include "macros.inc"
        .import sum, table
        .importzp pointer
        .export start, value
PORT    := $D000
WIDTH   = 5
.ifdef LARGE
SIZE    = 300
.else
SIZE    = 20
.endif

.code
start:  ldx     #WIDTH          ; a comment
@loop:  dex
        bne     @loop
:       bit     PORT
        bpl     :-
        twice   WIDTH
        jsr     sum
        beq     :+
        lda     table,x
:       store   pointer, value
        .repeat 3, i
        lda     #i
        store   pointer, value+i
        .repeat 2, j
        .byte   i*2+j
        .endrepeat
        .endrepeat
        jmp     start

.proc work
        lda     inner
        bne     done
@again: inc     inner
        countdown 4
        .scope deep
        here := work + 2
away:   beq     away
        bne     here
        .endscope
        .scope
hidden: nop
        .endscope
done:   rts
inner:  .byte   0
.endproc

.rodata
text:   .asciiz "LINES"
        .align  4
numbers:
        .word   start, work, work::done, text
        .if     SIZE > 100
        .res    SIZE, $EE
        .else
        .dword  SIZE
        .endif
        .include "more.inc"
ALL     := -1
LARGER  := $12345678
.bss
value:  .res    4
end_of_values:
.code
        last
""",
    "macros.inc": """; Macros that call macros, with repeats, conditions and names of their own.
.macro store where, what
        ldy     #0
        .ifnblank what
        lda     what
        .endif
        sta     (where),y
.endmacro
.macro countdown n
        .local  again
        ldx     #n
again:  dex
        bne     again
        .if     n > 1
        countdown n-1
        .endif
.endmacro
.macro twice n
        countdown 1
        .repeat 2, k
        .byte   n+k
        store   pointer
        .endrepeat
.endmacro
.macro operate instruction, with
        instruction with
.endmacro
.macro last
        .include "last.inc"
.endmacro
""",
    "more.inc": """more:   .byte   1,2,3
.segment "DATA"
moved:  .byte   "moved", 0
moved_word:
        .addr   moved
.zeropage
        .res    2
here_too:
        .res    1
.code
        operate lda, #3
        operate sta, moved
""",
    "last.inc": """        nop
last_label:
        operate jmp, last_label
""",
    "other.s": """        .export sum
        .exportzp pointer
        .include "macros.inc"
.zeropage
pointer:
        .res    2
.code
.proc sum
        store   pointer, #1
        clc
        rts
.endproc
private:
        countdown 2
        rts
""",
    "table.s": """        .export table
.rodata
        .incbin "table.bin", 1, 4
table:  .incbin "table.bin"
""",
    "extra.s": """        .export extra
.code
extra:  rts
        .incbin "table.bin"
""",
    "table.bin": "0123456789",
    "tricks.cfg": """MEMORY {
    ZP:  file = "", start = $0010, size = $00F0;
    RAM: file = "", start = $0300, size = $0500;
    ROM: start = $8000, size = $4000, fill = yes;
    TOP: file = "top.rom", start = $C000, size = $4000, define = yes;
}
SEGMENTS {
    ZEROPAGE: load = ZP, type = zp;
    CODE:     load = ROM, type = ro, align = 4;
    RODATA:   load = TOP, type = ro, align = 4;
    DATA:     load = TOP, run = RAM, type = rw, define = yes;
    BSS:      load = RAM, type = bss;
}
""",
}


@dataclass
class Program:
    """A program: its folder below that of all, its script, sources and options, and a library's folder."""

    name: str
    folder: str
    script: str
    sources: List[str]
    options: List[str] = field(default_factory=list)
    library: Optional[str] = None

    def words(self) -> List[str]:
        """The words of work65 list and its like."""
        library = [f"--library={self.name}.lib={self.library}"] if self.library else []
        return ["-C", self.script, *self.options, *library, *self.sources]

    def members(self, folder: str) -> List[str]:
        """The sources of the library."""
        return sorted(os.path.relpath(it, f"{folder}/{self.folder}") for it in glob.glob(f"{folder}/{self.folder}/{self.library}/*.s"))


def programs(folder: str) -> List[Program]:
    """Puts the programs into a folder, and names them."""
    shutil.copytree(f"{pages.ROOT}/example", f"{folder}/example", ignore=shutil.ignore_patterns("out"))
    os.makedirs(f"{folder}/tricks")
    for name, text in TRICKS.items():
        pages.put(f"{folder}/tricks/{name}", text)
    found = [Program("tricks", "tricks", "tricks.cfg", ["main.s", "other.s", "table.s"])]
    found.append(Program("large", "tricks", "tricks.cfg", ["main.s", "other.s", "table.s", "extra.s"], ["-D", "LARGE"]))
    for name, options in (("nes", []), ("c64", []), ("balls", ["-I", "balls/include", "-D", "NTSC"])):
        sources = [os.path.relpath(it, f"{folder}/example") for it in sorted(glob.glob(f"{folder}/example/{name}/*.s"))]
        found.append(Program(name, "example", f"{name}.cfg", sources, options))
    for target in ("nes", "c64", "vic20", "apple2", "atari"):
        sources = [os.path.relpath(it, f"{folder}/example") for it in sorted(glob.glob(f"{folder}/example/hello/{target}/*.s"))]
        found.append(Program(f"hello-{target}", "example", f"hello/{target}/{target}.cfg", ["hello/main.s", *sources], library="hello/lib"))
    os.rename(f"{folder}/example/library/main.s", f"{folder}/example/numbers.s")
    found.append(Program("library", "example", "library.cfg", ["numbers.s"], library="library"))
    return found


def environment(program: str, **more: str) -> Dict[str, str]:
    """The variables with which work65 is run."""
    return {**os.environ, "PYTHONPATH": f"{pages.ROOT}/workbench", "PYTHONDONTWRITEBYTECODE": "1", "BIN65": program, **more}


def work65(program: str, folder: str, *words: str, status: int = 0, **more: str) -> "subprocess.CompletedProcess[str]":
    """Runs work65; another status than is expected is an error."""
    how = environment(program, **more)
    ran = subprocess.run([sys.executable, "-m", "work65", *words], cwd=folder, env=how, capture_output=True, text=True, errors="replace")
    if ran.returncode != status:
        raise AssertionError(f"work65 {' '.join(words)}: status {ran.returncode}\n{ran.stdout}{ran.stderr}")
    return ran


def has_cc65() -> bool:
    """Whether cc65 is installed."""
    return all(map(shutil.which, ("ca65", "ld65", "ar65")))


@dataclass
class Made:
    """The results of cc65's tools for a program: listings by source, the map, the label file and the debug file."""

    listings: Dict[str, str]
    map: str
    labels: str
    debug: str


def text_of(name: str) -> str:
    """A file's text."""
    with open(name, encoding="utf-8", errors="replace") as it:
        return it.read()


def by_cc65(program: Program, folder: str) -> Made:
    """Builds a program by cc65's tools, beside the sources."""
    here, out = f"{folder}/{program.folder}", f"cc65-{program.name}"
    os.makedirs(f"{here}/{out}")

    def run(*words: str) -> None:
        subprocess.run(words, cwd=here, check=True, stderr=subprocess.DEVNULL, stdout=subprocess.DEVNULL)

    objects, listings = {}, {}
    for source in program.sources + (program.members(folder) if program.library else []):
        made = objects[source] = f"{out}/{os.path.splitext(os.path.basename(source))[0]}-{len(objects)}.o"
        run("ca65", "-g", "--list-bytes", "0", "-l", f"{made}.lst", *program.options, "-o", made, source)
        listings[source] = text_of(f"{here}/{made}.lst")
    inputs = [objects[it] for it in program.sources]
    if program.library:
        run("ar65", "r", f"{out}/{program.name}.lib", *(objects[it] for it in program.members(folder)))
        inputs.append(f"{out}/{program.name}.lib")
    words = ("-m", f"{out}/map", "-Ln", f"{out}/labels", "--dbgfile", f"{out}/debug", "-o", f"{out}/image")
    run("ld65", "-C", program.script, *words, *inputs)
    return Made(listings, *(text_of(f"{here}/{out}/{it}") for it in ("map", "labels", "debug")))


class Results:
    """Counts what passed, and says what failed."""

    def __init__(self) -> None:
        self.passed = self.failed = 0

    def check(self, name: str, is_so: bool, said: object = "") -> None:
        """Counts one check."""
        self.passed += is_so
        self.failed += not is_so
        if not is_so:
            print(f"{name}: FAILED\n{said}")

    def end(self) -> None:
        """Says the counts, and ends."""
        print(f"{self.passed} passed, {self.failed} failed")
        sys.exit(self.failed > 0)
