#!/usr/bin/env python3
"""Runs cases on the real program and compares everything it prints and writes. tests/cases/README.md describes the form of a case.

usage: cases.py BIN65 [FILE..]    without FILE all of tests/cases/*.txt. Prints a line for each file and for each failed case; the last line
is 'N passed, M failed'.
"""

import concurrent.futures
import copy
import glob
import os
import re
import shlex
import shutil
import subprocess
import sys
import tempfile
import time

import objects

ESCAPE = re.compile(r"\\(?:x(?P<hex>[0-9A-Fa-f]{2})|(?P<one>[nrt\\])|\*(?P<times>\d+)\{)")
ONES = {"n": b"\n", "r": b"\r", "t": b"\t", "\\": b"\\"}


class Malformed(Exception):
    pass


def closing(text, at):
    """Returns the index of the brace that closes the one before `at`."""
    depth = 1
    while depth:
        if at >= len(text):
            raise Malformed("a repeat without its }")
        depth += (text[at] == "{") - (text[at] == "}")
        at += 1
    return at - 1


def unescaped(text):
    """Returns the bytes of a text. \\n \\r \\t \\\\ \\xNN are bytes, and \\*N{TEXT} is N times TEXT, in which \\i is the count from 0 and \\j is one
    more."""
    found, at = bytearray(), 0
    for match in iter(lambda: ESCAPE.search(text, at), None):
        found += text[at : match.start()].encode()
        at = match.end()
        if match["hex"]:
            found.append(int(match["hex"], 16))
        elif match["one"]:
            found += ONES[match["one"]]
        else:
            end = closing(text, at)
            found += repeated(text[at:end], int(match["times"]))
            at = end + 1
    return bytes(found + text[at:].encode())


def repeated(body, times):
    if r"\i" not in body and r"\j" not in body:
        return unescaped(body) * times
    lines = (body.replace(r"\i", str(i)).replace(r"\j", str(i + 1)) for i in range(times))
    return b"".join(map(unescaped, lines))


def file_bytes(lines):
    """Returns the bytes of a file's lines. Each line has a line end, except a last one that ends in a single backslash."""
    if not lines:
        return b""
    text = "\n".join(lines)
    if re.search(r"(?<!\\)(\\\\)*\\$", text):
        return unescaped(text[:-1])
    return unescaped(text + "\n")


class Command:
    """A command line and the output that it must produce."""

    def __init__(self, line):
        self.words = [os.fsdecode(unescaped(word)) for word in shlex.split(line.replace("\\", "\\\\"))]
        self.out, self.err = [], []

    def output(self):
        """Returns the file that the command writes on success."""
        if "-o" in self.words:
            return self.words[self.words.index("-o") + 1]
        if self.words[0] == "ld65":
            return "a.out"
        return os.path.splitext(self.words[-1])[0] + ".o"


class Case:
    """Files, commands, and the files that must exist after them."""

    def __init__(self):
        self.name, self.line = "", 0
        self.files, self.template, self.columns = {}, None, []
        self.commands = []
        self.wanted, self.absent, self.dumps, self.texts = {}, [], {}, {}
        self.result = None

    def main(self):
        """Returns the file that the case is about."""
        return self.template[0] if self.template else "b.s"

    def all_commands(self):
        if self.commands:
            return self.commands
        links = "s.cfg" in self.files and "b.s" not in self.files
        self.commands = [Command("ld65 -C s.cfg a.o" if links else "ca65 b.s")]
        return self.commands

    def settle(self, result):
        """Applies a result of one line: a fault of a line, a message, no output, or bytes."""
        last = self.all_commands()[-1]
        fault = re.fullmatch(r"(\d+): (.*)", result)
        if fault:
            last.err = [f"{self.main()}:{fault[1]}: Error: {fault[2]}"]
        elif ": Error: " in result or ": Warning: " in result:
            last.err = result.split(" && ")
        elif result != "ok":
            self.result = result


class Reader:
    """Reads a file of cases."""

    def __init__(self, name):
        self.name, self.cases = name, []
        self.part, self.case = Case(), None
        with open(name, encoding="utf-8", newline="\n") as opened:
            self.lines = opened.read().split("\n")
        self.at = 0

    def read(self):
        while self.at < len(self.lines):
            line = self.lines[self.at]
            self.at += 1
            try:
                self.take(line)
            except (Malformed, ValueError, IndexError, KeyError) as why:
                raise SystemExit(f"{self.name}:{self.at}: {why or 'not understood'}")
        return self.cases

    def begin(self, name):
        case = copy.deepcopy(self.part)
        case.name, case.line = name, self.at
        self.cases.append(case)
        return case

    def indented(self):
        """Returns the lines that follow, without their indentation of four blanks."""
        found = []
        while self.at < len(self.lines) and re.match(r" {4}", self.lines[self.at]):
            found.append(self.lines[self.at][4:])
            self.at += 1
        return found

    def take(self, line):
        case = self.case or self.part
        words = line.split()
        if not words or line.startswith("# "):
            return
        if line.startswith("--- "):
            self.part, self.case = Case(), None
        elif line.startswith("== "):
            self.case = self.begin(line[3:].strip())
        elif line.startswith("==> "):
            case.settle(line[4:].strip())
        elif " ==> " in line:
            self.row(*line.split(" ==> ", 1))
        elif line.startswith("    "):
            self.at -= 1
            case.files["b.s"] = file_bytes(self.indented())
        elif line.startswith("$ "):
            case.commands.append(Command(line[2:]))
        elif line.startswith(("out| ", "err| ")):
            getattr(case.all_commands()[-1], line[:3]).append(line[5:])
        elif words[0] == "columns":
            self.part.columns = [[side.strip() for side in it.split("=")] for it in line.split("|")[1:]]
        elif case is self.part and case.columns and len(words) == 1 + len(case.columns):
            self.columns_row(words)
        elif words[0] == "with":
            name, _, first = line[5:].partition(":")
            case.template = (name, [first.strip()] if first.strip() else self.indented(), bool(first.strip()))
        elif len(words) == 2 and words[1] == "absent":
            case.absent.append(words[0])
        elif len(words) == 2 and words[1] == "is":
            case.dumps[words[0]] = self.indented()
        elif len(words) == 2 and words[1] == "says":
            case.texts[words[0]] = file_bytes(self.indented())
        elif len(words) > 1 and words[1] == "=":
            case.wanted[words[0]] = line.split(" = ", 1)[1].strip()
        elif words[0].endswith(":"):
            name, _, given = line.partition(":")
            case.files[name] = bytes.fromhex(given) if given.strip() else file_bytes(self.indented())
        else:
            raise Malformed(f"not understood: {line}")

    def row(self, left, result):
        """Reads a case of one line: the text that replaces the template's mark, and the result."""
        case = self.begin(left.strip())
        left = left.rstrip(" ")
        name, lines, is_hex = case.template or ("b.s", ["@@"], False)
        lines = [line.replace("@@", left) for line in lines]
        if is_hex:
            case.files[name] = bytes.fromhex(lines[0])
        else:
            case.files[name] = file_bytes([part for line in lines for part in line.split(" // ")])
        case.settle(result.strip())
        self.case = None

    def columns_row(self, words):
        """Reads a case for each column: its operand after the mnemonic, and the cell's bytes before those of the column."""
        for (operand, behind), cell in zip(self.part.columns, words[1:]):
            result = "1: no such addressing form" if cell == "--" else f"{cell} {behind}"
            self.row(f"{words[0]} {operand}", result)


def expanded(text):
    """The cells of a text: hexadecimal bytes, '--', '??', each perhaps several times, and '..'."""
    found = []
    for word in text.split():
        cell, _, times = word.partition("*")
        pairs = [cell[i : i + 2].upper() for i in range(0, len(cell), 2)]
        found += pairs * int(times or 1)
    return found


def same_cells(wanted, found):
    if wanted[:1] == [".."]:
        return found[len(found) - len(wanted) + 1 :] == wanted[1:]
    if wanted[-1:] == [".."]:
        return found[: len(wanted) - 1] == wanted[:-1]
    return wanted == found


def shortened(cells):
    """Cells as they may be written in a case."""
    found = []
    for cell in cells:
        if found and found[-1][0] == cell:
            found[-1][1] += 1
        else:
            found.append([cell, 1])
    return " ".join(cell if n == 1 else f"{cell}*{n}" if n > 3 else " ".join([cell] * n) for cell, n in found)


def heading(section):
    return section.name + (f" align {section.align}" if section.align > 1 else "")


def shown_object(file):
    """An object as a result in one line."""
    sections = objects.Object(file).sections
    if not sections:
        return "no sections"
    values = [it[2] for section in sections for it in section.fragments if isinstance(it, tuple)]
    if len(values) == 1:
        return f"form {values[0]}"
    if len(sections) == 1 and heading(sections[0]) == "CODE" and sections[0].fragments:
        return shortened(objects.cells(sections[0]))
    return "; ".join(f"{heading(it)}: {shortened(objects.cells(it))}".strip() for it in sections)


def is_object(result, file):
    """Whether an object is what a result in one line says of it."""
    sections = objects.Object(file).sections
    if result == "no sections":
        return not sections
    if result.startswith("form "):
        values = [it for section in sections for it in section.fragments if isinstance(it, tuple)]
        return [form for _, _, form in values] == [result[5:]]
    if ":" not in result:
        result = "CODE: " + result
    wanted = [[side.strip() for side in part.split(":")] for part in result.split(";")]
    return len(wanted) == len(sections) and all(
        name == heading(it) and same_cells(expanded(cells), objects.cells(it))
        for (name, cells), it in zip(wanted, sections)
    )


def is_file(result, file):
    """Whether a file has these bytes."""
    wanted = [] if result == "empty" else expanded(result)
    return same_cells(wanted, file.hex(" ").upper().split())


def contents(folder):
    """All files below a folder."""
    found = {}
    for place, _, names in os.walk(folder):
        for name in names:
            path = os.path.join(place, name)
            with open(path, "rb") as opened:
                found[os.path.relpath(path, folder)] = opened.read()
    return found


def joined(lines):
    return b"".join(unescaped(line) + b"\n" for line in lines)


def run_command(program, folder, command):
    """Why a command doesn't do what it has to, if it doesn't; and the files that it wrote."""
    before = contents(folder)
    ran = subprocess.run(
        [program, *command.words], cwd=folder, stdin=subprocess.DEVNULL, capture_output=True, timeout=300
    )
    after = contents(folder)
    written = {name: file for name, file in after.items() if before.get(name) != file}
    status = 1 if any(": Error: " in line for line in command.err) else 0
    if ran.returncode != status or ran.stdout != joined(command.out) or ran.stderr != joined(command.err):
        shown = [it[-300:].decode("latin-1") for it in (ran.stdout, ran.stderr)]
        return f"status {ran.returncode}, out {shown[0]!r}, err {shown[1]!r}", written
    if status and after != before:
        return f"a refused command wrote {sorted(written)}", written
    return "", written


def why_files_differ(case, folder, written):
    """Why what the last command wrote isn't what the case says, if it isn't."""
    last = case.commands[-1]
    wanted = dict(case.wanted)
    for name, result in wanted.items():
        file = contents(folder).get(name)
        if file is None or not is_file(result, file):
            return f"{name} is {'absent' if file is None else shortened(file.hex(' ').upper().split())}"
    for name, lines in case.dumps.items():
        found = objects.dump(contents(folder)[name])
        if found != lines:
            return f"{name} is\n    " + "\n    ".join(found)
    for name, text in case.texts.items():
        found = contents(folder).get(name)
        if found != text:
            return f"{name} is {'absent' if found is None else found.decode('latin-1')!r}"
    for name in case.absent:
        if os.path.exists(os.path.join(folder, name)):
            return f"{name} is there"
    if case.result is None:
        named = {*wanted, *case.dumps, *case.texts}
        return f"wrote {sorted(written)}" if named and set(written) - named else ""
    if set(written) - {last.output(), *wanted, *case.texts}:
        return f"wrote {sorted(written)}"
    file = contents(folder).get(last.output())
    if file is None:
        return f"{last.output()} is absent"
    if last.words[0] == "ca65":
        return "" if is_object(case.result, file) else f"{last.output()} is {shown_object(file)}"
    return "" if is_file(case.result, file) else f"{last.output()} is {shortened(file.hex(' ').upper().split())}"


def why_failed(program, case):
    """Why a case fails; empty where it passes."""
    folder = tempfile.mkdtemp(prefix="case-")
    try:
        for name, file in case.files.items():
            path = os.path.join(folder, name)
            os.makedirs(os.path.dirname(path), exist_ok=True)
            with open(path, "wb") as opened:
                opened.write(file)
        for command in case.all_commands():
            why, written = run_command(program, folder, command)
            if why:
                return why
        return why_files_differ(case, folder, written)
    except (ValueError, KeyError, StopIteration, subprocess.TimeoutExpired) as fault:
        return f"{type(fault).__name__}: {fault}"
    finally:
        shutil.rmtree(folder)


def run_file(program, name, pool):
    """Runs a file's cases; answers how many passed and failed."""
    began = time.monotonic()
    cases = Reader(name).read()
    answers = pool.map(lambda case: why_failed(program, case), cases)
    failed = 0
    for case, why in zip(cases, answers):
        if why:
            failed += 1
            print(f"{name}:{case.line}: {case.name}: FAILED: {why}")
    print(f"{os.path.basename(name)}: {len(cases) - failed} of {len(cases)} in {time.monotonic() - began:.1f} s", flush=True)
    return len(cases) - failed, failed


def main():
    program = os.path.abspath(sys.argv[1])
    here = os.path.dirname(os.path.abspath(__file__))
    names = sys.argv[2:] or sorted(glob.glob(os.path.join(here, "cases", "*.txt")))
    passed = failed = 0
    with concurrent.futures.ThreadPoolExecutor(os.cpu_count()) as pool:
        for name in names:
            ran = run_file(program, name, pool)
            passed, failed = passed + ran[0], failed + ran[1]
    print(f"{passed} passed, {failed} failed")
    sys.exit(failed != 0 or passed == 0)


if __name__ == "__main__":
    main()
