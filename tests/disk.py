#!/usr/bin/env python3
"""Tests the real program on a disk: files that end near the boundary of its buffer, files that it may not read or write, streams that accept
nothing, and its exit status.

usage: disk.py BIN65    Prints a line for each test; the last line is 'N passed, M failed'.
"""

import os
import shutil
import subprocess
import sys
import tempfile

# So many bytes of a file are read ahead.
BUFFER = 16384
ONE_ROW = b"MEMORY { ROM: start = 0, size = $100000; } SEGMENTS { A: load = ROM; B: load = ROM, optional = yes; }"
NOBODY = 65534


def record(kind, body):
    return bytes([kind]) + len(body).to_bytes(2, "little") + body


def section(name, size):
    return record(2, size.to_bytes(4, "little") + b"\0" + name)


def literals(piece):
    return b"".join(record(3, piece[at : at + 4096]) for at in range(0, len(piece), 4096))


def object_of(*sections):
    """Returns an object whose sections have one literal each, as ca65 writes it."""
    heads = b"".join(section(name, len(piece)) for name, piece in sections)
    return b"R65o\x02" + heads + b"".join(literals(piece) for _, piece in sections) + record(8, b"")


def pattern(count):
    return bytes((at * 7 + at // 251) % 256 for at in range(count))


class Tests:
    def __init__(self, program):
        self.folder = tempfile.mkdtemp(prefix="disk-")
        os.chmod(self.folder, 0o755)
        os.chdir(self.folder)
        # A copy, so that another user may run it.
        self.program = shutil.copy(program, os.path.join(self.folder, "bin65"))
        os.chmod(self.program, 0o755)
        self.passed = self.failed = 0

    def put(self, name, file):
        with open(name, "wb") as opened:
            opened.write(file)

    def get(self, name):
        if not os.path.isfile(name):
            return None
        with open(name, "rb") as opened:
            return opened.read()

    def run(self, *words, before=(), **streams):
        """Runs the program, and returns its status and both texts."""
        streams = {"stdout": subprocess.PIPE, "stderr": subprocess.PIPE, **streams}
        ran = subprocess.run([*before, self.program, *words], stdin=subprocess.DEVNULL, timeout=120, **streams)
        return ran.returncode, ran.stdout, ran.stderr

    def check(self, name, found, wanted):
        if found == wanted:
            self.passed += 1
            print(f"{name}: ok")
        else:
            self.failed += 1
            print(f"{name}: FAILED: {str(found)[:300]}, not {str(wanted)[:300]}")


QUIET = (0, b"", b"")


def refused(message):
    return 1, b"", message + b"\n"


def buffers(tests):
    """Tests files and records that end or begin at the buffer's end, or a byte from it."""
    for size in (BUFFER - 1, BUFFER, BUFFER + 1, 2 * BUFFER, 2 * BUFFER + 1):
        tests.put("a.s", b"nop\n" + b" " * 3 + b"\n" * (size - 8) + b"\n")
        ran = tests.run("ca65", "a.s")
        tests.check(f"a source of {size} bytes", (ran, tests.get("a.o")), (QUIET, object_of((b"CODE", b"\xea"))))
        tests.put("s.cfg", ONE_ROW.ljust(size - 1) + b"#")
        tests.put("a.o", object_of((b"A", b"\x05")))
        ran = tests.run("ld65", "-C", "s.cfg", "-o", "image", "a.o")
        tests.check(f"a script of {size} bytes", (ran, tests.get("image")), (QUIET, b"\x05"))
    tests.put("s.cfg", ONE_ROW)
    for beside in range(-5, 6):
        # The literal of B begins this many bytes after the buffer's end.
        first = pattern(3 * 4096 + 4061 + beside)
        file = object_of((b"A", first), (b"B", b"\x11\x22\x33"))
        assert file.index(b"\x03\x03\0\x11\x22\x33") == BUFFER + beside
        tests.put("a.o", file)
        ran = tests.run("ld65", "-C", "s.cfg", "-o", "image", "a.o")
        found = ran, tests.get("image")
        tests.check(f"a record {beside} bytes behind the buffer's end", found, (QUIET, first + b"\x11\x22\x33"))


def in_turn(tests):
    """Tests a script and an object longer than the buffer, and an object that is cut short there."""
    tests.put("s.cfg", ONE_ROW.replace(b"SEG", b"# a line\n" * 20000 + b"SEG"))
    content = pattern(300000)
    tests.put("a.o", object_of((b"A", content)))
    ran = tests.run("ld65", "-C", "s.cfg", "-o", "image", "a.o")
    tests.check("two long files in turn", (ran, tests.get("image")), (QUIET, content))
    tests.put("a.o", object_of((b"A", content))[:BUFFER])
    ran = tests.run("ld65", "-C", "s.cfg", "-o", "cut", "a.o")
    found = ran, tests.get("cut")
    tests.check("an object that ends with the buffer", found, (refused(b"a.o: Error: object cut short"), None))


def outputs(tests):
    """Tests outputs that already exist, and one that can't be written."""
    tests.put("s.cfg", ONE_ROW)
    tests.put("a.o", object_of((b"A", b"\x05")))
    tests.put("image", b"longer than the image")
    tests.check("an older longer image", (tests.run("ld65", "-C", "s.cfg", "-o", "image", "a.o"), tests.get("image")), (QUIET, b"\x05"))
    tests.put("b.s", b"nop\n")
    tests.put("b.o", bytes(1000))
    found = tests.run("ca65", "b.s"), tests.get("b.o")
    tests.check("an older longer object", found, (QUIET, object_of((b"CODE", b"\xea"))))
    files = b'ONE: start = 0, size = 9, file = "one"; TWO: start = 0, size = 9, file = "no/two"; THREE: start = 0, size = 9, file = "three";'
    tests.put("s.cfg", b"MEMORY { " + files + b" } SEGMENTS { A: load = ONE; B: load = TWO; C: load = THREE; }")
    tests.put("a.o", object_of((b"A", b"\x01"), (b"B", b"\x02"), (b"C", b"\x03")))
    ran = tests.run("ld65", "-C", "s.cfg", "a.o")
    found = ran, tests.get("one"), tests.get("three")
    tests.check("the second of three files can't be written", found, (refused(b"no/two: Error: file error"), b"\x01", None))
    if os.path.exists("/dev/full"):
        found = tests.run("ca65", "-o", "/dev/full", "b.s")
        tests.check("a device that is full", found, refused(b"/dev/full: Error: file error"))


def streams(tests):
    """Tests which text goes to which stream, and streams that accept nothing."""
    tests.put("t.s", b'.out "one"\n.warning "two"\nnop\n')
    ran = tests.run("ca65", "t.s")
    tests.check("each text on its stream", ran, (0, b"one\n", b"t.s:2: Warning: two\n"))
    if not os.path.exists("/dev/full"):
        print("streams that take nothing: skipped, there is no /dev/full")
        return
    tests.put("u.s", tests.get("t.s"))
    with open("/dev/full", "wb") as full:
        ran = tests.run("ca65", "u.s", stdout=full)
        found = ran, tests.get("u.o")
        tests.check("standard output takes nothing: nothing further is said or written", found, ((1, None, b""), None))
        ran = tests.run("ca65", "u.s", stderr=full)
        tests.check("standard error takes nothing: nothing is written", (ran, tests.get("u.o")), ((1, b"one\n", None), None))
        ran = tests.run("ca65", "none.s", stderr=full)
        tests.check("a refusal that can't be said", ran, (1, b"", None))
        ran = tests.run("ca65", "b.s", stdout=full, stderr=full)
        tests.check("where nothing is to be said, no stream is asked", ran, (0, None, None))


def ends(tests):
    """Tests the status of each way to end."""
    tests.put("w.s", b'.warning "w"\n')
    tests.check("0 with a warning", tests.run("ca65", "w.s")[0], 0)
    tests.check("1 where the line is refused", tests.run("as65", "w.s")[0], 1)
    tests.put("f.s", b".bogus\n")
    tests.check("1 where the source is refused", tests.run("ca65", "f.s")[0], 1)
    tests.check("1 where a file is missing", tests.run("ca65", "none.s")[0], 1)
    tests.check("1 where an output can't be written", tests.run("ca65", "-o", "no/w.o", "w.s")[0], 1)


def unread(tests):
    """Tests files that exist and can't be read, named by a source: the message names the line, after the texts of earlier lines."""
    os.mkdir("folder")
    before = b'.warning "first"\n.out "second"\n'
    said = b"second\n", b"a.s:1: Warning: first\n"
    for line in (b'.include "folder"', b'.incbin "folder"', b'l: .incbin "folder",1,2', b'.include "/proc/self/mem"'):
        tests.put("a.s", before + line + b'\n.warning "behind"\n')
        ran = tests.run("ca65", "-o", "unread.o", "a.s")
        wanted = 1, said[0], said[1] + b"a.s:3: Error: file error\n"
        tests.check(f"{line.decode()} can't be read", (ran, tests.get("unread.o")), (wanted, None))
    for operands, fault in ((b"s::n", b"no such scope: s::n"), (b"later", b"operand not constant or out of range"), (b"-1", b"file error")):
        tests.put("a.s", before + b'.incbin "folder",' + operands + b"\nlater = 1\n")
        ran = tests.run("ca65", "-o", "unread.o", "a.s")
        wanted = 1, said[0], said[1] + b"a.s:3: Error: " + fault + b"\n"
        tests.check(f"{operands.decode()} of a file that can't be read", (ran, tests.get("unread.o")), (wanted, None))
    tests.put("a.s", b'nop\n\n.include "b.inc"\n')
    tests.put("b.inc", b'.repeat 2, i\n.warning "in b"\n.endrepeat\n.macro m\n.incbin "folder"\n.endmacro\nm\n')
    ran = tests.run("ca65", "-o", "unread.o", "a.s")
    tests.check("within an included file", ran, (1, b"", b"b.inc:3: Warning: in b\n" * 2 + b"b.inc:7: Error: file error\n"))
    ran = tests.run("ca65", "-o", "unread.o", "folder")
    tests.check("a source that can't be read", ran, refused(b"folder: Error: file error"))


# The kind of a file, the message if it is read, and the message if it is written; docs/MESSAGES.md has the table.
FAULTS = (
    ("nothing", "none.s", b"file not found", None),
    ("a name without bytes", "", b"file not found", None),
    ("a link to nothing", "dangling", b"file not found", None),
    ("a folder that isn't there", "none/a.s", b"file not found", b"file error"),
    ("a folder", "folder", b"file error", b"file error"),
    ("a file for a folder", "b.s/a.s", b"file error", b"file error"),
    ("a name of 300 bytes", "n" * 300, b"file error", b"file error"),
    ("a link to itself", "looped", b"file error", b"file error"),
)


def faults(tests):
    """Tests which error of the disk becomes which of the two faults. An empty name can't be written, so no object is written then."""
    os.symlink("nowhere/to/be/found", "dangling")
    os.symlink("looped", "looped")
    for what, name, read, written in FAULTS:
        if name:
            found = tests.run("ca65", "-o", "read.o", name), tests.get("read.o")
            tests.check(f"{what}, as a source", found, (refused(name.encode() + b": Error: " + read), None))
        tests.put("a.s", b'.incbin "%s"\n' % name.encode())
        found = tests.run("ca65", "-o", "read.o", "a.s"), tests.get("read.o")
        tests.check(f"{what}, by .incbin", found, (refused(b"a.s:1: Error: " + read), None))
        if written:
            found = tests.run("ca65", "-o", name, "b.s")
            tests.check(f"{what}, as an object", found, refused(name.encode() + b": Error: " + written))


def unread_outputs(tests):
    """Tests that outputs are only written, never read: an object goes into a pipe, and its bytes come out in order."""
    wanted = object_of((b"CODE", pattern(50000)))
    tests.put("long.bin", pattern(50000))
    tests.put("long.s", b'.incbin "long.bin"\n')
    os.mkfifo("pipe")
    with subprocess.Popen(["cat", "pipe"], stdout=subprocess.PIPE) as reader:
        ran = tests.run("ca65", "-o", "pipe", "long.s")
        tests.check("an object into a pipe", (ran, reader.communicate(timeout=60)[0]), (QUIET, wanted))


def permissions(tests):
    """Tests files and folders that the user may not access."""
    before = ()
    if os.getuid() == 0:
        before = ("setpriv", f"--reuid={NOBODY}", f"--regid={NOBODY}", "--clear-groups")
        if not shutil.which("setpriv") or subprocess.run([*before, "true"], capture_output=True).returncode:
            print("files that may not be read: skipped, root may read all of them and setpriv is not there")
            return
    os.mkdir("closed")
    tests.put("closed/a.s", b"nop\n")
    tests.put("hidden.s", b"nop\n")
    tests.put("fixed.o", b"old")
    os.chmod("hidden.s", 0)
    os.chmod("fixed.o", 0o444)
    os.chmod("closed", 0)
    run = tests.run("ca65", "closed/a.s", before=before)
    tests.check("a source in a folder that may not be read", run, refused(b"closed/a.s: Error: file error"))
    run = tests.run("ca65", "hidden.s", before=before)
    tests.check("a source that may not be read", run, refused(b"hidden.s: Error: file error"))
    run = tests.run("ca65", "-o", "fixed.o", "b.s", before=before)
    tests.check("an object that may not be written", (run, tests.get("fixed.o")), (refused(b"fixed.o: Error: file error"), b"old"))
    run = tests.run("ca65", "-o", "closed/b.o", "b.s", before=before)
    tests.check("an object in a folder that may not be read", run, refused(b"closed/b.o: Error: file error"))
    tests.put("blind.o", b"an object that was here before")
    os.chmod("blind.o", 0o222)
    run = tests.run("ca65", "-o", "blind.o", "b.s", before=before)
    os.chmod("blind.o", 0o666)
    found = run, tests.get("blind.o")
    tests.check("an object that may be written and not read", found, (QUIET, object_of((b"CODE", b"\xea"))))
    os.chmod("closed", 0o755)


def main():
    tests = Tests(os.path.abspath(sys.argv[1]))
    try:
        for part in (buffers, in_turn, outputs, streams, ends, unread, faults, unread_outputs, permissions):
            part(tests)
    finally:
        os.chdir("/")
        shutil.rmtree(tests.folder)
    print(f"{tests.passed} passed, {tests.failed} failed")
    sys.exit(tests.failed != 0)


if __name__ == "__main__":
    main()
