#!/usr/bin/env python3
"""Tries mutants, edits that plant a bug: the prover must refuse each.

usage: mutants.py [CRATE[/EDIT]..]    those of mutants/ and must-fail/, of these crates (default: of all)
       mutants.py --changed           at most ten of functions that the last commits changed, for the gate

`rt must-fail` tries the first, in a copy of the repository, over what the proofs of the crates kept; these are built first.
It keeps each result on this machine by a checksum of all that it depends on, so an interrupted run goes on where it stopped.
The second are tried by the compiler itself over the libraries that `rt ci` has just built in this checkout: it checks only the
functions that the mutants change, while `rt must-fail` would prove the whole crate again, and each library below it.
Each minute a line tells how far it is; the last line is 'N refused, M not'."""
import os
import re
import shutil
import signal
import subprocess
import sys
import tempfile
import threading
import time
import zlib
from concurrent.futures import ThreadPoolExecutor

import reader
from progress import each_minute, say

ROOT = reader.ROOT
# How many mutants one call of `rt must-fail` tries: what it found is kept and told when it ends.
AT_ONCE = 24
# A landing is what was committed in the hours before its last commit: a session is shorter, and its gate runs after it.
HOURS, MOST = 4, 10
# How much memory has to be free before a check of a mutant begins beside proofs.
FREE = 6_000_000_000
# An error for such a reason says nothing of the contract.
LACKS_A_NAME = re.compile(
    r"has no field|is not in scope|has no `|was not admitted|is no name|operand is missing|expected the end|cannot continue")
PLACE = re.compile(r"^(?:note: )?(?:what antt said .*?: )?(?:\./)?((?:src|proofs)/\S+?):(\d+):\d+: (.*)$", re.M)
PIPED = {"stdin": subprocess.DEVNULL, "stdout": subprocess.PIPE, "stderr": subprocess.STDOUT, "text": True, "errors": "replace"}


def free():
    """Returns the free memory of the machine in bytes."""
    with open("/proc/meminfo", encoding="utf-8") as it:
        return 1024 * int(re.search(r"MemAvailable:\s+(\d+)", it.read())[1])


def name_of(edit):
    """Returns the name of a mutant, CRATE/EDIT."""
    return f"{edit.split('/')[-3]}/{os.path.basename(edit).removesuffix('.edit')}"


def proved_copy(room, crates):
    """Proves these crates, copies the repository without its mutants, and returns why a crate isn't proved there, or None.
    `rt` takes over in the copy what was proved of the same text, so this takes seconds."""
    if subprocess.run([sys.executable, f"{ROOT}/gate/prove.py", *crates], check=False).returncode:
        return "its crate is not proved as it is, so it was not tried"
    shutil.copytree(f"{ROOT}/crates", f"{room}/crates", ignore=shutil.ignore_patterns("out", "mutants", "must-fail"))
    shutil.copytree(f"{ROOT}/gate", f"{room}/gate")
    for it in filter(lambda it: os.path.isfile(f"{ROOT}/{it}"), ("crates.txt", "HANDLES")):
        shutil.copy(f"{ROOT}/{it}", room)
    # (it is the top of a repository)
    os.mkdir(f"{room}/.git")
    ran = subprocess.run([sys.executable, f"{room}/gate/prove.py", *crates], stdout=subprocess.DEVNULL, check=False)
    return "files were changed meanwhile, so it was not tried" if ran.returncode else None


def is_refused(said):
    """Returns whether `rt must-fail` says of a mutant that a proof refuses it; not a limit of the prover, nor the borrow
    checker alone."""
    return said.startswith(("refused, as it must be: ", "refused, as it must be (only because a proof file"))


def tried(room, crate, edits):
    """Tries edits of a crate in a copy of the repository, and returns what `rt must-fail` says of each."""
    folder = f"{room}/crates/{crate}/must-fail"
    shutil.rmtree(folder, ignore_errors=True)
    os.makedirs(folder)
    for it in edits:
        shutil.copy(it, folder)
    ran = subprocess.run(["rt", "must-fail", crate], cwd=room, check=False, **PIPED)
    said = dict(re.findall(r"^rt: must-fail \w+/(\S+\.edit): (.*)$", ran.stdout, re.M))
    last = " / ".join(ran.stdout.rstrip().split("\n")[-3:])
    return {it: said.get(os.path.basename(it), f"it was not tried: {last}") for it in edits}


def chosen(words):
    """Returns the mutants that the arguments name by crate; an argument that names none ends the run."""
    every = {crate: reader.edits_of(f"{ROOT}/crates/{crate}") for crate in reader.crates()}
    names = {name_of(it) for edits in every.values() for it in edits}
    for it in words:
        if it not in names and not every.get(it):
            sys.exit(f"no mutant is called {it}")
    found = {crate: [it for it in edits if not words or crate in words or name_of(it) in words] for crate, edits in every.items()}
    return {crate: edits for crate, edits in found.items() if edits}


def try_all(words):
    """Tries the mutants that the arguments name, and returns what was found of each: whether it is refused, and why."""
    every, found, ended = chosen(words), {}, threading.Event()
    parts = [(crate, edits[at : at + AT_ONCE]) for crate, edits in every.items() for at in range(0, len(edits), AT_ONCE)]
    part = parts[0][1] if parts else []
    with tempfile.TemporaryDirectory(prefix="mutants-") as room:
        lacking = proved_copy(room, every) if parts else None
        if lacking:
            return {edit: (False, lacking) for _, part in parts for edit in part}
        told = lambda: f"{len(found)} of {sum(map(len, every.values()))} mutants tried; now from {name_of(part[0])} on"
        threading.Thread(target=each_minute, args=(ended, told), daemon=True).start()
        for crate, part in parts:
            found.update((edit, (is_refused(said), said)) for edit, said in tried(room, crate, part).items())
            print("\n".join(f"{name_of(edit)}: {found[edit][1][:200]}" for edit in part), flush=True)
    ended.set()
    return found


def git(*words):
    """Returns what git prints, or nothing if it fails."""
    ran = subprocess.run(["git", *words], cwd=ROOT, capture_output=True, text=True, errors="replace", check=False)
    return ran.stdout.strip() if ran.returncode == 0 else ""


def changed_lines():
    """Returns the lines of each source file that the landing changed, counted from 0, by its path in the repository."""
    date = git("show", "-s", "--format=%ct", "HEAD")
    before = date and git("rev-list", "-1", "--first-parent", f"--before={int(date) - HOURS * 3600}", "HEAD")
    found, path = {}, None
    text = git("diff", "--unified=0", "--no-color", before, "HEAD", "--", "crates/*/src/*.rt") if before else ""
    for line in text.split("\n"):
        if line.startswith("+++ "):
            path = line[6:] if line.startswith("+++ b/") else None
        at = re.match(r"@@ -\S+ \+(\d+)(?:,(\d+))? @@", line)
        if at and path:
            first = int(at[1]) - 1
            found.setdefault(path, set()).update(range(first, first + max(int(at[2] or 1), 1)))
    return found


def functions_of(edit, folder):
    """Returns the functions in whose bodies all changes of an edit are, by their paths; nothing if it changes something else,
    too."""
    found, texts = {}, reader.edited(edit, folder)[0] or {}
    for path, (was, now) in texts.items():
        was, now = was.split("\n"), now.split("\n")
        inside = [it for it in reader.functions(folder) if it.file == f"{folder}/{path}" and it.body is not None]
        for number in [at for at, line in enumerate(now) if len(now) == len(was) and line != was[at]] or [-1]:
            holds = next((it for it in inside if it.body < number < it.last), None)
            if not holds:
                return {}
            found[holds.path] = holds
    return found


def changed(lines):
    """Returns at most MOST mutants of functions that have one of these lines, each with the functions that it changes; others
    for another commit."""
    found, head = [], git("rev-parse", "HEAD")
    for crate in {path.split("/")[1] for path in lines} & {*reader.crates(ROOT)}:
        folder = f"{ROOT}/crates/{crate}"
        names = {it.path for it in reader.functions(folder)
                 if not lines.get(os.path.relpath(it.file, ROOT), set()).isdisjoint(range(it.first, it.last + 1))}
        # (those of must-fail/ `rt ci` tries)
        tries = {it: functions_of(it, folder) for it in reader.edits_of(folder) if "/mutants/" in it}
        found += [(edit, functions) for edit, functions in tries.items() if not names.isdisjoint(functions)]
    return sorted(found, key=lambda it: zlib.crc32(f"{head} {name_of(it[0])}".encode()))[:MOST]


def link(source, to):
    """Gives a proof or a library a second name, since a check replaces such a file and never changes it; another file is
    copied."""
    try:
        os.link(source, to) if source.endswith(".oantt") or "/out/rlib/" in source else shutil.copy2(source, to)
    except OSError:
        shutil.copy2(source, to)


class Compiler:
    """Checks functions of crates by the compiler, over the libraries that were built in this checkout."""

    def __init__(self, room):
        # (until `end` a check waits for memory: proofs may run beside it)
        self.room, self.crates, self.end = room, reader.crates(), time.monotonic() + 900
        for it in self.crates:
            if os.path.isdir(f"{ROOT}/crates/{it}/out/rlib/{it}.rlib"):
                shutil.copytree(f"{ROOT}/crates/{it}/out/rlib/{it}.rlib", f"{room}/rlib/{it}.rlib", copy_function=link)

    def words(self, crate, functions, kept):
        """Returns the command that checks these functions of a crate, and keeps their proofs in a folder."""
        kit, own = reader.kit(), f"{self.room}/rlib"
        libraries = {"std": f"{kit}/rlibs", **{it: own if it in self.crates else f"{kit}/rlibs" for it in self.crates[crate]}}
        return [f"{kit}/bin/rattle", "check", "--crate-name", crate, "src/lib.rt", "--links", f"{crate}=", "--jobs", "1",
                "--antt-project", f"{kit}/rattle/logic/antt-project.json", "--logic-built", f"{kit}/logic_built",
                *(word for name, at in libraries.items() for word in ("--extern", f"{name}={at}/{name}.rlib")),
                "-L", f"dependency={kit}/rlibs", "-L", f"dependency={own}", "--incremental", kept,
                *(word for it in sorted(functions) for word in ("--only", it))]

    def check(self, crate, texts, functions, kept):
        """Checks these functions of a crate, with texts in place of its own, and returns the status and what was printed."""
        with tempfile.TemporaryDirectory(dir=self.room) as folder:
            for part in filter(lambda it: os.path.isdir(f"{ROOT}/crates/{crate}/{it}"), ("src", "specs", "proofs")):
                shutil.copytree(f"{ROOT}/crates/{crate}/{part}", f"{folder}/{part}")
            for path, text in texts.items():
                with open(f"{folder}/{path}", "w", encoding="utf-8") as it:
                    it.write(text)
            for _ in range(2):
                while free() < FREE and time.monotonic() < self.end:
                    time.sleep(5)
                ran = subprocess.run(self.words(crate, functions, kept), cwd=folder, check=False, **PIPED)
                if ran.returncode != -signal.SIGKILL:
                    # (else it was most likely for memory)
                    break
        return ran.returncode, ran.stdout.rstrip("\n")


def refusal(status, said):
    """Returns an error by which a check refuses a mutant; None if it proves all that it was asked for, or tells no more than
    that a name was lost, that the text can't be read or that the borrow checker doesn't cover it."""
    counted = re.search(r"^only=(\d+) proved=(\d+)\Z", said, re.M)
    is_refused = status == 1 and counted and int(counted[2]) < int(counted[1])
    if not is_refused or not re.search(r"^fn \S+: (not proved|no proof: expected answers)", said, re.M):
        return None
    return next((f"{file}:{line}: {error}" for file, line, error in PLACE.findall(said) if not LACKS_A_NAME.search(error)), None)


def seed(compiler, crate, edits):
    """Proves the functions that mutants of a crate change, as they are, and returns how to name those of one, and why it failed or
    None. The proof of a function uses the contracts of others and never their bodies, so only these functions are checked."""
    # (status 2: a check names a function otherwise)
    for asked in (lambda own: {*own}, lambda own: {reader.module_of(it.file) for it in own.values()}):
        status, said = compiler.check(crate, {}, set().union(*(asked(own) for _, own in edits)), f"{compiler.room}/{crate}")
        if status != 2:
            break
    counted = re.search(r"^only=(\d+) proved=(\d+)\Z", said, re.M)
    is_proved = not status and counted and counted[1] == counted[2]
    return asked, None if is_proved else f"its functions are not proved as they are: {said[-300:]}"


def tried_alone(compiler, edit, names):
    """Tries a mutant over what its seed kept, and returns whether it is refused, and why."""
    crate = name_of(edit).partition("/")[0]
    with tempfile.TemporaryDirectory(dir=compiler.room) as over:
        shutil.copytree(f"{compiler.room}/{crate}", f"{over}/kept", copy_function=link)
        texts = {path: now for path, (_, now) in reader.edited(edit, f"{ROOT}/crates/{crate}")[0].items()}
        status, said = compiler.check(crate, texts, names, f"{over}/kept")
    why, last = refusal(status, said), " / ".join(said.split("\n")[-3:])
    return bool(why), why or f"NOT REFUSED: its check ended with status {status}: {last}"


def try_changed():
    """Tries mutants of changed functions, and returns what was found of each: whether it is refused, and why."""
    os.nice(5)
    with tempfile.TemporaryDirectory(prefix="mutants-") as room, ThreadPoolExecutor(2) as workers:
        # (at once: when it ends, `rt ci` may put back what was built before)
        compiler, tries, by_crate = Compiler(room), changed(changed_lines()), {}
        say(f"{len(tries)} mutants of functions that were changed in the {HOURS} hours before the last commit")
        for edit, own in tries:
            by_crate.setdefault(name_of(edit).partition("/")[0], []).append((edit, own))
        seeds = dict(zip(by_crate, workers.map(lambda it: seed(compiler, *it), by_crate.items())))

        def one(edit, own):
            asked, why = seeds[name_of(edit).partition("/")[0]]
            return (False, why) if why else tried_alone(compiler, edit, asked(own))

        return dict(zip((edit for edit, _ in tries), workers.map(lambda it: one(*it), tries)))


def main(words):
    found = try_changed() if words == ["--changed"] else try_all(words)
    why = {name_of(edit): said for edit, (refused, said) in found.items() if not refused}
    for name, said in why.items():
        print(f"FAILED: {name}: {said[:600]}")
    print(f"{len(found) - len(why)} refused, {len(why)} not")
    return 1 if why else 0


if __name__ == "__main__":
    sys.exit(main(sys.argv[1:]))
