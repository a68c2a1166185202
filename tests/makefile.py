#!/usr/bin/env python3
"""Runs example/Makefile in a copy of example/: from nothing with `make -j4`; with nothing to do; after a source, a script, a library's source, an
included file or a file of .incbin changed, was added or was removed; with rejected sources; with a full disk; and the run after each of
these; with and without work65. Each machine's image must equal the one that cc65 makes of the same sources and script, and have its checksum.

usage: makefile.py BIN65. The last line is 'N passed, M failed'."""
import glob
import os
import shutil
import subprocess
import sys
import tempfile
import zlib

import pages

# The name of each machine's image, and the checksum (CRC 32) of the one that cc65 made.
IMAGES = {
    "nes": ("hello.nes", 0xF85FBF27),
    "c64": ("hello.prg", 0x751250B6),
    "vic20": ("hello.prg", 0xFEDBF07F),
    "apple2": ("hello.as", 0x96153580),
    "atari": ("hello.xex", 0x089CE17F),
}


def content(file):
    """Returns a file's bytes, or None if it doesn't exist."""
    if not os.path.exists(file):
        return None
    with open(file, "rb") as it:
        return it.read()


class Trial:
    """A copy of the example in a folder of its own, and the failures found."""

    def __init__(self, folder, program):
        self.folder, self.program = folder, program
        self.passed, self.failed = 0, 0
        shutil.copy(f"{pages.ROOT}/example/Makefile", folder)
        shutil.copytree(f"{pages.ROOT}/example/hello", f"{folder}/hello")

    def make(self, *words, before=""):
        """Runs make, and returns its status and its output."""
        line = " ".join(("make", f"BIN65='{self.program}'", "WORK65=", *words))
        ran = subprocess.run(["bash", "-c", before + line], cwd=self.folder, stdout=subprocess.PIPE, stderr=subprocess.STDOUT)
        return ran.returncode, ran.stdout.decode(errors="replace")

    def image(self, target):
        return content(f"{self.folder}/out/hello/{target}/{IMAGES[target][0]}")

    def images(self):
        return {it: self.image(it) for it in IMAGES}

    def age(self):
        """Makes all files two seconds older, so that a file written now is newer than what was built from it."""
        for it in filter(os.path.isfile, glob.glob(f"{self.folder}/**", recursive=True)):
            os.utime(it, (os.stat(it).st_mtime - 2,) * 2)

    def put(self, file, text):
        self.age()
        os.makedirs(os.path.dirname(f"{self.folder}/{file}"), exist_ok=True)
        pages.put(f"{self.folder}/{file}", text)

    def edit(self, file, old, new):
        """Replaces a text in a file."""
        with open(f"{self.folder}/{file}", encoding="utf-8") as it:
            text = it.read()
        assert old in text, f"{file} has no {old!r}"
        self.put(file, text.replace(old, new))

    def check(self, name, is_so, said=""):
        self.passed, self.failed = self.passed + bool(is_so), self.failed + (not is_so)
        if not is_so:
            print(f"{name}: FAILED\n{said}")


def cc65_image(folder, target):
    """Returns the image that cc65 makes of a machine's sources and script."""
    out = f"{folder}/cc65/{target}"
    os.makedirs(out)
    own = sorted(os.path.basename(it) for it in glob.glob(f"{folder}/hello/{target}/*.s"))
    sources = ["hello/main.s", *(f"hello/{target}/{it}" for it in own), "hello/lib/print.s"]
    objects = [f"{out}/{os.path.basename(it)}.o" for it in sources]
    for source, made in zip(sources, objects):
        subprocess.run(["ca65", "-o", made, source], cwd=folder, check=True)
    words = ["ld65", "-C", f"hello/{target}/{target}.cfg", "-o", f"{out}/image", *objects]
    subprocess.run(words, cwd=folder, check=True)
    return content(f"{out}/image")


def from_nothing(trial):
    status, said = trial.make("-j4")
    trial.check("make -j4 from nothing", status == 0 and "Error" not in said and "Warning" not in said, said)
    for target, (_, checksum) in IMAGES.items():
        image = trial.image(target)
        trial.check(f"{target}'s checksum", zlib.crc32(image or b"") == checksum, f"{zlib.crc32(image or b''):#x}")
        if shutil.which("ca65") and shutil.which("ld65"):
            trial.check(f"{target}'s image is cc65's", image == cc65_image(trial.folder, target))
    status, said = trial.make()
    trial.check("nothing is to do", status == 0 and trial.program not in said, said)


def after_changes(trial):
    """Tests that a change is built, and nothing else."""
    trial.edit("hello/main.s", '"HELLO"', '"HELLOO"')
    status, said = trial.make("TARGET=c64")
    trial.check("a source", status == 0 and b"HELLOO" in trial.image("c64") and said.count(" ca65 ") == 1, said)
    trial.edit("hello/lib/print.s", "bne     @next", "bne     @next\n        nop")
    status, said = trial.make("TARGET=c64")
    trial.check("a source of the library", status == 0 and b"\xd0\xf6\xea\x60" in trial.image("c64") and " ar65 r " in said, said)
    trial.edit("hello/c64/c64.cfg", "size = $97FF", "size = $0010")
    kept = trial.image("c64")
    status, said = trial.make("TARGET=c64")
    trial.check("a script that is refused", status != 0 and "overflow of PROGRAM" in said and trial.image("c64") == kept, said)
    trial.edit("hello/c64/c64.cfg", "size = $0010", "size = $97FF")
    trial.check("and mended", trial.make("TARGET=c64")[0] == 0)
    status, said = trial.make("TARGET=c64", "FLAGS='-D FAST'")
    trial.check("other flags", status == 0 and said.count("-D FAST") >= 4, said)
    trial.make("TARGET=c64")


def members(trial, target):
    """Returns the names of the members of a machine's library."""
    words = [trial.program, "ar65", "t", f"{trial.folder}/out/hello/{target}/hello.lib"]
    return subprocess.run(words, capture_output=True, text=True, check=False).stdout.split()


def gone(trial):
    """Tests sources that are added or removed: the library has exactly the members whose sources exist."""
    trial.put("hello/lib/more.s", " .export more\nmore: rts\n")
    status, said = trial.make("TARGET=c64")
    trial.check("a member that came", status == 0 and members(trial, "c64") == ["more.o", "print.o", "print_hex.o"], said)
    os.remove(f"{trial.folder}/hello/lib/more.s")
    status, said = trial.make("TARGET=c64")
    trial.check("a member that went", status == 0 and members(trial, "c64") == ["print.o", "print_hex.o"], said)
    os.rename(f"{trial.folder}/hello/lib/print.s", f"{trial.folder}/kept")
    status, said = trial.make("TARGET=c64")
    trial.check("a member that the program needs", status != 0 and "ld65: Error: unresolved: print\n" in said, said)
    os.rename(f"{trial.folder}/kept", f"{trial.folder}/hello/lib/print.s")
    trial.check("and it is there again", trial.make("TARGET=c64")[0] == 0)
    os.rename(f"{trial.folder}/hello/lib", f"{trial.folder}/kept")
    status, said = trial.make("TARGET=c64")
    trial.check("all members went", status != 0 and "ld65: Error: unresolved: print\n" in said and not members(trial, "c64"), said)
    os.rename(f"{trial.folder}/kept", f"{trial.folder}/hello/lib")
    trial.check("and they are there again", trial.make("TARGET=c64")[0] == 0)
    trial.put("hello/c64/extra.s", " .code\n .byte 'E', 'X', 'T', 'R', 'A'\n")
    status, said = trial.make("TARGET=c64")
    trial.check("a module that came", status == 0 and b"EXTRA" in trial.image("c64"), said)
    os.remove(f"{trial.folder}/hello/c64/extra.s")
    status, said = trial.make("TARGET=c64")
    trial.check("a module that went", status == 0 and b"EXTRA" not in trial.image("c64"), said)


def taken_in(trial):
    """Tests a file in a folder of its own that a module includes or reads by .incbin, and one of another machine."""
    trial.put("hello/parts/deep/text.inc", " .byte 'O', 'N', 'E'\n")
    trial.put("hello/parts/data.bin", "DATA1")
    trial.edit("hello/c64/machine.s", ".code", '.rodata\n .include "parts/deep/text.inc"\n .incbin "../parts/data.bin"\n.code')
    status, said = trial.make("TARGET=c64")
    trial.check("files in folders", status == 0 and b"ONEDATA1" in trial.image("c64"), said)
    trial.put("hello/parts/deep/text.inc", " .byte 'T', 'W', 'O'\n")
    status, said = trial.make("TARGET=c64")
    trial.check("an included file in a folder", status == 0 and b"TWODATA1" in trial.image("c64"), said)
    trial.put("hello/parts/data.bin", "DATA2")
    status, said = trial.make("TARGET=c64")
    trial.check("a file of .incbin", status == 0 and b"TWODATA2" in trial.image("c64"), said)
    trial.put("hello/nes/tiles.bin", "TILES")
    trial.put("hello/.hidden", "an editor's")
    trial.put("hello/with a blank", "of no module")
    status, said = trial.make("TARGET=c64")
    trial.check("files that no module of the machine takes", status == 0 and trial.program not in said, said)
    os.remove(f"{trial.folder}/hello/parts/deep/text.inc")
    status, said = trial.make("TARGET=c64")
    trial.check("an included file that went", status != 0 and "hello/c64/machine.s" in said and "file not found" in said, said)


def with_work65(trial):
    """Tests that with work65 a module is rebuilt after the files that it includes, and after no others."""
    trial.put("hello/parts/deep/text.inc", " .byte 'S', 'I', 'X'\n")
    trial.put("hello/parts/spare.inc", "; of no module\n")
    work65 = f"WORK65='sh {pages.ROOT}/workbench/work65.sh'"
    status, said = trial.make("TARGET=c64", work65)
    trial.check("with work65", status == 0 and b"SIXDATA2" in trial.image("c64") and said.count(" ca65 ") == 4, said)
    status, said = trial.make("TARGET=c64", work65)
    trial.check("nothing is to do for work65", status == 0 and trial.program not in said, said)
    trial.put("hello/parts/spare.inc", "; of none\n")
    status, said = trial.make("TARGET=c64", work65)
    trial.check("a file that no module takes", status == 0 and trial.program not in said, said)
    trial.put("hello/parts/data.bin", "DATA3")
    status, said = trial.make("TARGET=c64", work65)
    trial.check("a file that one takes", status == 0 and b"SIXDATA3" in trial.image("c64") and said.count(" ca65 ") == 1, said)
    os.remove(f"{trial.folder}/hello/parts/spare.inc")
    trial.check("and without it again", trial.make("TARGET=c64", "WORK65=")[0] == 0)


def other_makefile(trial):
    """Tests that a Makefile with another name builds what it lists, on all machines."""
    with open(f"{trial.folder}/Makefile", encoding="utf-8") as it:
        text = it.read()
    pages.put(f"{trial.folder}/other.mk", text.replace("NAME    := hello", "NAME    := other").replace(" nes c64 vic20 apple2 atari", " c64 lone"))
    shutil.copytree(f"{pages.ROOT}/example/hello", f"{trial.folder}/other")
    shutil.copytree(f"{trial.folder}/other/c64", f"{trial.folder}/other/lone")
    os.rename(f"{trial.folder}/other/lone/c64.cfg", f"{trial.folder}/other/lone/lone.cfg")
    status, said = trial.make("-f", "other.mk")
    images = [content(f"{trial.folder}/out/other/{it}") for it in ("c64/other.prg", "lone/other.bin")]
    trial.check("make -f other.mk", status == 0 and images[0] is not None and images[0] == images[1], said)


def refused(trial, before):
    """Tests a rejected source: make fails, what was built before stays, and the next run builds it."""
    trial.edit("hello/main.s", "jsr     print", "jsrr    print")
    status, said = trial.make("-j4")
    trial.check("a refused source", status != 0 and "hello/main.s:10: Error: statement not understood" in said, said)
    trial.check("the images stay", trial.images() == before)
    trial.edit("hello/main.s", "jsrr    print", "jsr     print")
    status, said = trial.make("-j4")
    trial.check("the next run", status == 0 and trial.images() == before, said)


def full_disk(trial, before):
    """Tests a full disk: no partial image is left that could pass for a complete one."""
    trial.edit("hello/nes/nes.cfg", "MEMORY {", "MEMORY { ")
    status, said = trial.make("TARGET=nes", before="trap '' XFSZ; ulimit -f 16; ")
    trial.check("a full disk", status != 0 and "hello.nes: Error: file error" in said, said)
    trial.check("half an image", trial.image("nes") is None)
    status, said = trial.make("-j4")
    trial.check("the run after it", status == 0 and trial.images() == before, said)


def main():
    with tempfile.TemporaryDirectory() as folder:
        trial = Trial(folder, os.path.abspath(sys.argv[1]))
        from_nothing(trial)
        before = trial.images()
        refused(trial, before)
        full_disk(trial, before)
        after_changes(trial)
        gone(trial)
        taken_in(trial)
        with_work65(trial)
        other_makefile(trial)
        status, said = trial.make("clean")
        trial.check("make clean", status == 0 and not os.path.exists(f"{folder}/out/hello"), said)
    print(f"{trial.passed} passed, {trial.failed} failed")
    sys.exit(trial.failed > 0)


main()
