#!/usr/bin/env python3
"""work65's list, labels, debug, deps and size with invalid input: one clear message, no file left, no traceback. Also
sources with random changes, folders reached by links, and how often bin65 is run.

usage: workbench_bad.py BIN65 [SOURCES]    SOURCES changed sources (40). The last line is 'N passed, M failed'."""
import os
import pty
import random
import re
import signal
import subprocess
import sys
import tempfile
import time
from typing import Dict, List, Sequence

import pages
import workbench_builds as builds

COMMANDS = ("list", "labels", "debug", "deps", "size")
SOURCE = '        .include "a.inc"\nstart:  lda     #1\n        jmp     start\n'
SCRIPT = "MEMORY { M: start = $8000, size = $100; }\nSEGMENTS { CODE: load = M, type = ro; }\n"
FILES: Dict[str, str] = {
    "a.s": SOURCE,
    "a.inc": "N = 1\n",
    "a.cfg": SCRIPT,
    "empty.s": "",
    "empty.cfg": "",
    "wrong.s": "        nop\n        bogus\n",
    "wrong.cfg": "MEMORY { M: start = $8000 }\n",
    "written.cfg": SCRIPT.replace("size = $100;", 'size = $100, file = "sub/area.bin";'),
    "self.s": '        nop\n        .incbin "self.s"\n',
    "sub/b.s": '        .include "../a.inc"\n        .byte   N\n',
}
LINES = (
    ".scope", ".endscope", ".proc q", ".endproc", ".repeat 2", ".endrepeat", ".if 1", ".else", ".endif", ".macro zz a", ".endmacro",
    " zz 3", ".end",
)
TOKEN = re.compile(r'"[^"\n]*"|\.?[A-Za-z_@][A-Za-z0-9_]*|\$?[0-9A-F]+|[^\sA-Za-z0-9]')


class Trial:
    """A folder of sources, and one for temporary files."""

    def __init__(self, program: str, results: builds.Results, top: str) -> None:
        self.program, self.results = program, results
        self.folder, self.room = f"{top}/here", f"{top}/room"
        os.makedirs(f"{self.folder}/sub")
        os.makedirs(self.room)
        for name, text in FILES.items():
            pages.put(f"{self.folder}/{name}", text)
        with open(f"{self.folder}/bytes.s", "wb") as it:
            it.write(bytes(range(256)) * 4)

    def run(self, words: Sequence[str], **more: str) -> "subprocess.CompletedProcess[str]":
        """Runs work65."""
        how = builds.environment(self.program, **{"TMPDIR": self.room, **more})
        line = [sys.executable, "-m", "work65", *words]
        return subprocess.run(line, cwd=self.folder, env=how, capture_output=True, encoding="utf-8", errors="replace", timeout=60)

    def files(self) -> Dict[str, bytes]:
        """All files and folders, of both folders."""
        found = {}
        for top in (self.folder, self.room):
            for folder, _, names in os.walk(top):
                found[folder] = b""
                for name in names:
                    with open(f"{folder}/{name}", "rb") as it:
                        found[f"{folder}/{name}"] = it.read()
        return found

    def refused(self, name: str, words: Sequence[str], said: str, status: int = 1, **more: str) -> None:
        """Tests a command line that must fail with one message and change no file."""
        before = self.files()
        ran = self.run(words, **more)
        lines = ran.stderr.strip().splitlines()
        is_one = len(lines) == 1 if status == 1 else bool(lines)
        is_so = ran.returncode == status and is_one and said in ran.stderr and ran.stdout == "" and "Traceback" not in ran.stderr
        is_so = is_so and self.files() == before
        self.results.check(f"{name}: {' '.join(words)}", is_so, f"status {ran.returncode}\n{ran.stdout}{ran.stderr}")


def line_of(command: str, *words: str) -> List[str]:
    """A line of a command."""
    head = [] if command == "deps" else ["-C", "a.cfg"]
    return [command, *head, *(["-o", "out.dbg"] if command == "debug" and "-o" not in words else []), *words]


def wrong_words(trial: Trial) -> None:
    """Tests errors in the files and the command line."""
    for command in COMMANDS:
        trial.refused("no bin65", line_of(command, "a.s"), "bin65 not found: /nowhere/bin65", BIN65="/nowhere/bin65")
        trial.refused("no source", line_of(command, "none.s"), "none.s: No such file or directory")
        trial.refused("a folder", line_of(command, "sub"), "sub: Is a directory")
        trial.refused("no option of it", line_of(command, "--bogus", "a.s"), "--bogus", 2)
        trial.refused("no source at all", line_of(command), "SOURCE", 2)
        if command != "deps":
            trial.refused("bytes that aren't text", line_of(command, "bytes.s"), "bytes.s:1: Error: bad character")
            trial.refused("a source that is refused", line_of(command, "wrong.s"), "wrong.s:2: Error: statement not understood")
            trial.refused("no script", [command, "-C", "none.cfg", *line_of(command, "a.s")[3:]], "none.cfg: No such file or directory")
            trial.refused("a folder as script", [command, "-C", "sub", *line_of(command, "a.s")[3:]], "sub: Is a directory")
            trial.refused("a refused script", [command, "-C", "wrong.cfg", *line_of(command, "a.s")[3:]], "wrong.cfg:1: Error: syntax error")
            trial.refused("an empty script", [command, "-C", "empty.cfg", *line_of(command, "a.s")[3:]], "segment has no row: CODE")
        if command != "size":
            trial.refused("a folder that isn't there", line_of(command, "-o", "no/out", "a.s"), "no/out: No such file or directory")
            trial.refused("a folder in the file's place", line_of(command, "-o", "sub", "a.s"), "sub: Is a directory")
    for command in ("list", "labels", "debug", "size"):
        trial.refused("a source that takes itself in", line_of(command, "self.s"), "self.s: the instrumented copy isn't the same program")
    trial.refused("no such form", line_of("labels", "--format", "vise", "a.s"), "vise", 2)
    trial.refused("no library", line_of("list", "--library", "x.lib", "a.s"), "NAME=FOLDER", 2)
    trial.refused("no source of a list", line_of("list", "--library", "x.lib=a.s,none.s", "a.s"), "none.s: no such source")
    trial.refused("no folder of a library", line_of("list", "--library", "x.lib=none", "a.s"), "none: not a folder of sources")
    trial.refused("another program", line_of("list", "a.s"), "ended with status 1", BIN65="/bin/false")


def right(trial: Trial) -> None:
    """Input that is accepted though it looks wrong, and leaves no file."""
    results = trial.results
    before = trial.files()
    for command in COMMANDS:
        if command != "debug":
            ran = trial.run(line_of(command, "a.s"))
            results.check(f"{command}: nothing is left", ran.returncode == 0 and ran.stdout != "" and trial.files() == before, ran.stderr)
        ran = trial.run([command, "--help"])
        results.check(f"{command} --help", ran.returncode == 0 and "--bin65" in ran.stdout and "-I" in ran.stdout, ran.stdout)
    ran = trial.run(["list", "-C", "written.cfg", "a.s", "sub/b.s", "empty.s"])
    results.check("the script's own files aren't written", ran.returncode == 0 and trial.files() == before, ran.stderr)
    is_so = all(it in ran.stdout for it in ("8000  A9 01", "8005  01", "== empty.s"))
    results.check("and the bytes are there", is_so, ran.stdout)
    pages.put(f"{trial.folder}/käse.s", '        .include "größe.inc"\nk:      .byte   N ; käse\n')
    pages.put(f"{trial.folder}/größe.inc", "N = 7\n")
    pages.put(f"{trial.folder}/käse.cfg", SCRIPT.replace("size = $100;", 'size = $100, file = "käse.bin";'))
    before = trial.files()
    shown = {"list": "k:      .byte   N ; käse", "size": "käse.o     1     1", "labels": ".k", "debug": 'oname="käse.bin"', "deps": "größe.inc"}
    for command, wanted in shown.items():
        output = ["-o", "/dev/stdout"] if command == "debug" else []
        ran = trial.run([command, *([] if command == "deps" else ["-C", "käse.cfg"]), *output, "käse.s"])
        results.check(f"{command}: names that aren't ASCII", ran.returncode == 0 and wanted in ran.stdout and trial.files() == before, ran.stdout + ran.stderr)
    for words in (line_of("list", "a.s"), line_of("labels", "a.s"), line_of("size", "a.s"), ["size", "--json", "-C", "a.cfg", "a.s"],
                  line_of("deps", "a.s"), ["faults", "wrong.s"], ["check", "--json", "wrong.s"], ["--version"]):
        with open("/dev/full", "w") as full:
            how = builds.environment(trial.program, TMPDIR=trial.room)
            line = [sys.executable, "-m", "work65", *words]
            done = subprocess.run(line, cwd=trial.folder, env=how, stdout=full, stderr=subprocess.PIPE, text=True)
        said = "work65: standard output: No space left on device\n"
        results.check(f"a full disk: {words}", done.returncode == 1 and done.stderr == said and trial.files() == before, done.stderr)


def links(trial: Trial) -> None:
    """The same listing from other folders, by other names and by links."""
    results = trial.results
    wanted = trial.run(["list", "-C", "a.cfg", "sub/b.s"]).stdout.splitlines()[1:]
    os.symlink(trial.folder, f"{trial.folder}/../link")
    os.symlink(f"{trial.folder}/sub", f"{trial.folder}/behind")
    for words in (["sub/../sub/b.s"], ["behind/b.s"], [f"{trial.folder}/sub/b.s"], ["../link/sub/b.s"], ["../link/behind/b.s"]):
        ran = trial.run(["list", "-C", "a.cfg", *words])
        lines = [it for it in ran.stdout.splitlines()[1:] if not it.startswith("== ")]
        is_so = ran.returncode == 0 and lines == [it for it in wanted if not it.startswith("== ")]
        results.check(f"list {words[0].replace(trial.folder, '')}", is_so, ran.stdout + ran.stderr)
    os.remove(f"{trial.folder}/../link")
    os.remove(f"{trial.folder}/behind")


def script_for(trial: Trial, text: str) -> str:
    """A program in bin65's place."""
    name = f"{os.path.dirname(trial.folder)}/instead"
    pages.put(name, f"#!/bin/sh\n{text}\n")
    os.chmod(name, 0o755)
    return name


def on_terminal(trial: Trial, words: Sequence[str], **more: str) -> str:
    """Returns the output on standard error, which is a terminal."""
    reads, writes = pty.openpty()
    how = builds.environment(trial.program, TMPDIR=trial.room, **more)
    line = [sys.executable, "-m", "work65", *words]
    subprocess.run(line, cwd=trial.folder, env=how, stdout=subprocess.DEVNULL, stderr=writes, timeout=60)
    os.write(writes, b"|")
    said = b""
    while not said.endswith(b"|"):
        said += os.read(reads, 65536)
    os.close(writes)
    os.close(reads)
    return said.decode().rstrip("|")


def pipes(trial: Trial) -> None:
    """A pipe or a device in place of a file that is read: no command blocks on it."""
    folder = f"{os.path.dirname(trial.folder)}/pipes"
    os.mkdir(folder)
    os.mkfifo(f"{folder}/pipe.s")
    for name, text in {"include": '.include "pipe.s"', "incbin": '.incbin "pipe.s"', "device": '.incbin "/dev/zero"'}.items():
        pages.put(f"{folder}/{name}.s", f"        {text}\n")
    for command in (*COMMANDS, "faults"):
        for name in ("pipe", "include", "incbin", "device"):
            if command == "faults" and name != "pipe":
                continue
            words = [command, f"{folder}/{name}.s"] if command == "faults" else line_of(command, f"{folder}/{name}.s")
            said = "/dev/zero: not a regular file" if name == "device" else f"{folder}/pipe.s: not a regular file"
            trial.refused(f"a {name}", words, said)
    trial.refused("a pipe as script", ["list", "-C", f"{folder}/pipe.s", "a.s"], "pipe.s: not a regular file")


def early(trial: Trial) -> None:
    """Tests Ctrl-C while Python starts and loads work65: no output, and no files are left."""
    before = trial.files()
    for command in (["check", "."], ["list", "-C", "a.cfg", "a.s"]):
        for wait in (0, 0.005, 0.01, 0.02, 0.03, 0.05, 0.08, 0.12):
            line = ["sh", f"{pages.ROOT}/workbench/work65.sh", *command]
            how = builds.environment(trial.program, TMPDIR=trial.room)
            streams = {"stdout": subprocess.DEVNULL, "stderr": subprocess.PIPE, "text": True}
            it = subprocess.Popen(line, cwd=trial.folder, env=how, start_new_session=True, preexec_fn=heeding, **streams)
            time.sleep(wait)
            os.killpg(it.pid, signal.SIGINT)
            said = it.communicate(timeout=20)[1]
            is_so = it.returncode in (-signal.SIGINT, 130, 0, 1) and said == "" and trial.files() == before
            trial.results.check(f"Ctrl-C after {wait} seconds of {command[0]}", is_so, f"{it.returncode} {said}")


def far(trial: Trial) -> None:
    """How far a long run is, on a terminal alone; nothing of it stays there."""
    slow = script_for(trial, f'sleep 0.5; exec "{trial.program}" "$@"')
    for command in ("list", "deps"):
        words = line_of(command, "a.s", "sub/b.s", *(["wrong.s", "empty.s"] if command == "deps" else []))
        said = on_terminal(trial, words, BIN65=slow)
        is_so = " of 4 sources" in said and "\r\x1b[K" in said
        trial.results.check(f"{command}: how far it is", is_so, repr(said))


def in_its_place(trial: Trial) -> None:
    """How often bin65 is run; a file that vanishes; Ctrl-C."""
    results = trial.results
    counted = f"{os.path.dirname(trial.folder)}/counted"
    counting = script_for(trial, f'echo "$1" >> {counted}\nexec "{trial.program}" "$@"')
    for command in ("list", "labels"):
        ran = trial.run(line_of(command, "a.s", "sub/b.s"), BIN65=counting)
        runs = builds.text_of(counted).split()
        results.check(f"{command}: runs of bin65", ran.returncode == 0 and sorted(runs) == ["ca65"] * 4 + ["ld65"], runs)
        os.remove(counted)
    vanishing = script_for(trial, f'"{trial.program}" "$@" || exit 1\nrm -f a.inc')
    ran = trial.run(line_of("list", "a.s"), BIN65=vanishing)
    results.check("a file that vanishes", ran.returncode == 1 and ran.stderr.count("\n") == 1 and "Traceback" not in ran.stderr, ran.stderr)
    pages.put(f"{trial.folder}/a.inc", FILES["a.inc"])
    before = trial.files()
    waiting = script_for(trial, "sleep 60")
    how = builds.environment(waiting, TMPDIR=trial.room)
    for command, sent in [*((it, signal.SIGINT) for it in COMMANDS), ("list", signal.SIGTERM), ("deps", signal.SIGHUP)]:
        line = [sys.executable, "-m", "work65", *line_of(command, "a.s")]
        it = subprocess.Popen(line, cwd=trial.folder, env=how, stderr=subprocess.PIPE, start_new_session=True, text=True, preexec_fn=heeding)
        until = time.monotonic() + 20
        while not os.listdir(trial.room) and time.monotonic() < until:
            time.sleep(0.05)
        time.sleep(0.2)
        os.killpg(it.pid, sent)
        said = it.communicate(timeout=20)[1]
        results.check(f"{command}: {sent.name}", it.returncode == 130 and trial.files() == before and "Traceback" not in said, said)


def heeding() -> None:
    """Signals are heeded, also where whoever runs the tests ignores them."""
    for it in (signal.SIGINT, signal.SIGTERM, signal.SIGHUP):
        signal.signal(it, signal.SIG_DFL)


def mutated(text: str, chance: random.Random) -> str:
    """A source with a few lines changed by chance."""
    lines = text.split("\n")
    for _ in range(chance.choice((1, 1, 2))):
        one, other = chance.randrange(len(lines)), chance.randrange(len(lines))
        how = chance.randrange(6)
        if how == 0:
            lines[one], lines[other] = lines[other], lines[one]
        elif how == 1:
            lines.insert(other, lines[one])
        elif how == 2:
            tokens, others = TOKEN.findall(lines[one]), TOKEN.findall(lines[other])
            lines[one] = lines[one].replace(chance.choice(tokens), chance.choice(others), 1) if tokens and others else ""
        elif how == 3:
            lines.insert(one, chance.choice(LINES))
        elif how == 4:
            lines[one : one + 2] = [".repeat 2, qq", *lines[one : one + 2], ".endrepeat"]
        else:
            at = chance.randrange(len(lines[one]) + 1)
            lines[one] = lines[one][:at] + chr(chance.randrange(256)) + lines[one][at:]
    return "\n".join(lines)


def changed_sources(trial: Trial, times: int) -> None:
    """Tests randomly changed sources: bin65's own message, or the requested output, and no traceback."""
    chance = random.Random(65)
    it = builds.programs(f"{trial.folder}/programs")[0]
    trial.folder = f"{trial.folder}/programs/{it.folder}"
    taken = 0
    for number in range(times):
        name = chance.choice([*it.sources, "macros.inc", "more.inc"])
        kept = builds.text_of(f"{trial.folder}/{name}")
        with open(f"{trial.folder}/{name}", "w", encoding="latin-1", newline="") as file:
            file.write(mutated(kept, chance))
        command = chance.choice(COMMANDS)
        words = it.sources if command == "deps" else it.words()
        ran = trial.run([command, *words, *(["-o", "/dev/null"] if command == "debug" else [])])
        taken += ran.returncode == 0
        is_so = ran.returncode in (0, 1) and "Traceback" not in ran.stderr and "copy" not in ran.stderr
        trial.results.check(f"changed source {number}: {command}", is_so, ran.stderr)
        pages.put(f"{trial.folder}/{name}", kept)
    trial.results.check("some of them are taken", 0 < taken < times, taken)


def main() -> None:
    program = os.path.abspath(sys.argv[1])
    results = builds.Results()
    with tempfile.TemporaryDirectory() as top:
        trial = Trial(program, results, top)
        wrong_words(trial)
        right(trial)
        links(trial)
        in_its_place(trial)
        pipes(trial)
        early(trial)
        far(trial)
        changed_sources(trial, int(sys.argv[2]) if len(sys.argv) > 2 else 40)
    results.end()


main()
