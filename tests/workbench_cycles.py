#!/usr/bin/env python3
"""Tests work65's `list --cycles`, `pages`, `unused`, `size --diff` and `banks` by the rows of
cycle_rows.py. If cc65's sim65 is installed, it counts the cycles of a straight routine. Also runs
over each program of example/, invalid input, the time for 20,000 lines, and, if cc65 is
installed, over builds of cc65 by ld65's debug files (cycle_debug.py).

usage: workbench_cycles.py BIN65 [LINES]    LINES of the large program (20000). The last line is
'N passed, M failed'."""
import json
import os
import re
import shutil
import subprocess
import sys
import tempfile
from typing import Any, Dict, Iterator, List, Tuple

import cycle_debug
import cycle_rows as known
import pages
import workbench_builds as builds

LISTED = re.compile(r"([0-9A-F]{4})  [0-9A-F ]{23} (\S*)")
INSTRUCTION = re.compile(r"\s*([@\w?]*:(?!:))?\s*[a-z]{3}(?=\s|$)")
# Runs a command line in this process, and writes how many seconds of a processor it took.
TIMED = """import resource, sys
from work65.main import run
run(sys.argv[1:])
sys.stderr.write(str(sum(resource.getrusage(resource.RUSAGE_SELF)[:2])))"""
BLOCK = re.compile(r"^```\n(.*?)^```", re.M | re.S)


class Trial:
    """A folder with sources, the program, and the results."""

    def __init__(self, program: str, results: builds.Results, top: str) -> None:
        self.program, self.results, self.top, self.number = program, results, top, 0

    def folder(self, files: Dict[str, str]) -> str:
        """Puts files into a new folder."""
        self.number += 1
        for name, text in files.items():
            os.makedirs(os.path.dirname(f"{self.top}/{self.number}/{name}"), exist_ok=True)
            pages.put(f"{self.top}/{self.number}/{name}", text)
        return f"{self.top}/{self.number}"

    def run(self, folder: str, *words: str, status: int = 0) -> str:
        """Runs work65, and returns what it prints."""
        return builds.work65(self.program, folder, *words, status=status).stdout

    def tool(self, folder: str, *words: str) -> None:
        """Runs bin65."""
        subprocess.run([self.program, *words], cwd=folder, check=True, capture_output=True)

    def same(self, name: str, said: object, wanted: object) -> None:
        """Compares two results."""
        self.results.check(name, said == wanted, f"{said}\nis wanted to be\n{wanted}")


def forms() -> Iterator[Tuple[str, str]]:
    """Each documented instruction, with its cycles."""
    for line in known.FORMS.strip("\n").splitlines():
        operands, words = line.split(" | ")
        for word in words.split():
            for operand in operands.split(", "):
                form, _, cycles = operand.rpartition(" ")
                yield f"{word} {form}".strip(), cycles


def cycles_in(listing: str) -> Dict[str, str]:
    """The cycles of a listing by their addresses."""
    return {it[1]: it[2] for it in map(LISTED.match, listing.splitlines()) if it and it[2]}


def whole_table(trial: Trial) -> None:
    """Each instruction has the cycles of the table."""
    wanted = list(forms())
    trial.same("the number of documented instructions", len(wanted), 151)
    text = "".join(f"        {text}\n" for text, _ in wanted)
    folder = trial.folder({"a.s": text, "a.cfg": known.script("$8000")})
    values = json.loads(trial.run(folder, "list", "--cycles", "--json", "-C", "a.cfg", "a.s"))
    said = [(it["text"].strip(), it["cycles"]) for it in values["lines"]]
    trial.same("the cycles of all", [it for it in zip(said, wanted) if it[0] != it[1]], [])
    trial.same("how many are listed", len(said), len(wanted))


def crossings(trial: Trial) -> None:
    """Pages and cycles at known addresses."""
    folder = trial.folder({"a.s": known.CROSSING, "a.cfg": known.script("$80F0")})
    words = ("-C", "a.cfg", "a.s")
    listing = trial.run(folder, "list", "--cycles", *words)
    trial.same("cycles after the link", cycles_in(listing), known.CYCLES)
    trial.same("pages", trial.run(folder, "pages", *words), known.CROSSED)
    values = json.loads(trial.run(folder, "pages", "--json", *words))["crossings"]
    trial.same("pages --json", [it["first"] for it in values], [0x80FF, 0x81FD, 0x81FC, 0x81FD])
    folder = trial.folder({"a.s": known.POINTERS, "a.cfg": known.script("$8000")})
    said = trial.run(folder, "pages", *words).splitlines()[:-1]
    trial.same("pointers", said, ["a.s:14: lda (pointer),y: reads 80FF to 8100"])


def comments(trial: Trial) -> None:
    """The comments `; samepage`."""
    for comment, wanted in known.SAMEPAGE.items():
        line = re.escape(re.sub(r"\s*;.*", "", comment.split("\n")[0]))
        pattern = re.compile(rf"^( *){line}\s.*$", re.M)
        text = pattern.sub(lambda it: it[1] + comment, known.CROSSING, 1)
        folder = trial.folder({"a.s": text, "a.cfg": known.script("$80F0")})
        said = trial.run(folder, "pages", "-C", "a.cfg", "a.s", status=int(bool(wanted)))
        found = [it for it in said.splitlines() if "Error" in it]
        is_changed = text != known.CROSSING
        trial.same(f"samepage: {comment}", (found, is_changed), ([wanted] if wanted else [], True))


def sums(trial: Trial) -> None:
    """The sums of procedures."""
    for body, wanted in known.SUMS.items():
        lines = [it if ":" in it else f" {it}" for it in body.splitlines()]
        text = "\n".join([".proc p", *lines, ".endproc", ""])
        folder = trial.folder({"a.s": text, "a.cfg": known.script("$8000")})
        said = trial.run(folder, "list", "--cycles", "-C", "a.cfg", "a.s")
        trial.same(f"the sum of {body}", re.findall("; p: (.*)", said), [wanted] if wanted else [])


def simulated(trial: Trial) -> None:
    """A straight routine takes as many cycles in cc65's simulator as its listing says."""
    counts: Dict[Tuple[str, str], int] = {}
    found: List[Tuple[str, str]] = []
    empty = "        rts\n"
    for body in (empty, known.STRAIGHT):
        for index in ("0", "255"):
            text = known.SIMULATED.replace("INDEX", index).replace("BODY\n", body)
            folder = trial.folder({"a.s": text, "a.cfg": known.SIMULATOR})
            said = trial.run(folder, "list", "--cycles", "-C", "a.cfg", "a.s")
            found = re.findall(r"; routine: (\d+) to (\d+) cycles", said) or found
            trial.tool(folder, "ca65", "-o", "a.o", "a.s")
            trial.tool(folder, "ld65", "-C", "a.cfg", "-o", "a.bin", "a.o")
            words = ["sim65", "-c", "a.bin"]
            ran = subprocess.run(words, cwd=folder, capture_output=True, text=True, check=True)
            counts[body, index] = int(re.findall(r"(\d+) cycles", ran.stdout + ran.stderr)[0])
    wanted = [counts[known.STRAIGHT, it] - counts[empty, it] + 6 for it in ("0", "255")]
    trial.same("as sim65 counts", [[int(it) for it in sums] for sums in found], [wanted])


def references(trial: Trial) -> None:
    """What nothing refers to."""
    folder = trial.folder({**known.UNUSED, "a.cfg": known.script("$8000")})
    words = ("-C", "a.cfg", "main.s", "--library", "l.lib=lib")
    trial.same("unused", trial.run(folder, "unused", *words), known.UNUSED_TEXT)
    values = json.loads(trial.run(folder, "unused", "--json", *words))
    first = values["not_referred_to"][0]["name"]
    trial.same("unused --json", (values["bytes"], first), (33, "older"))
    more = ("--json", "--entry", "start", "--entry", "older")
    values = json.loads(trial.run(folder, "unused", *more, *words))
    names = [it["name"] for it in values["not_referred_to"] if it["module"] == "main.o"]
    trial.same("unused --entry", names, ["spare", "unseen", "lost", "handlers", "handled"])


def with_objects(trial: Trial) -> None:
    """References of the script and of objects without sources."""
    script = known.script("$8000") + "SYMBOLS { spare: type = import; }\n"
    folder = trial.folder({**known.UNUSED, "a.cfg": script})
    for name in ("a", "b"):
        trial.tool(folder, "ca65", "-o", f"{name}.o", f"lib/{name}.s")
    said = trial.run(folder, "unused", "-C", "a.cfg", "main.s", "a.o", "b.o")
    is_so = "spare" not in said and "EXPORT" not in said and "\nb.o: not seen: its lines" in said
    trial.results.check("unused with objects", is_so, said)


def banks(trial: Trial) -> None:
    """Banks of a window."""
    words = ("-C", "a.cfg", "a.s")
    folder = trial.folder({"a.s": known.BANKED, "a.cfg": known.BANKS})
    trial.same("banks", trial.run(folder, "banks", *words, status=1), known.BANKED_TEXT)
    values = json.loads(trial.run(folder, "banks", "--json", *words, status=1))
    trial.same("banks --json", [it["label_bank"] for it in values], [1, 2, 2, 2])
    parts = {"CODE1": "one: jsr one", "CODE2": "two: jmp two"}
    parts.update({"FIXED": "jsr one", "HIGH": "jmp two"})
    text = "".join(f' .segment "{segment}"\n {line}\n' for segment, line in parts.items())
    said = trial.run(trial.folder({"a.s": text, "a.cfg": known.BANKS}), "banks", *words)
    trial.same("no call between banks", said, "")


def differences(trial: Trial) -> None:
    """Changes of sizes, of sources and of maps."""
    files = {"enemies.s": known.ENEMIES, "main.s": known.MAIN, "a.cfg": known.script("$8000")}
    folder, words = trial.folder(files), ("-C", "a.cfg", "main.s", "enemies.s")

    def sizes(name: str) -> str:
        for it in ("main", "enemies"):
            trial.tool(folder, "ca65", "-o", f"{it}.o", f"{it}.s")
        trial.tool(folder, "ld65", "-C", "a.cfg", "-m", f"{name}.map", "main.o", "enemies.o")
        pages.put(f"{folder}/{name}.json", trial.run(folder, "size", "--json", *words))
        return trial.run(folder, "size", "--json", "-C", "a.cfg", f"{name}.map")

    pages.put(f"{folder}/old-map.json", sizes("old"))
    said = trial.run(folder, "size", "--diff", "old.json", *words)
    trial.same("no change", said, "no area has more or fewer bytes\n")
    for name, text in known.CHANGED.items():
        pages.put(f"{folder}/{name}", text)
    sizes("new")
    said = trial.run(folder, "size", "--diff", "old.json", *words)
    trial.same("size --diff", said, known.CHANGES)
    values = json.loads(trial.run(folder, "size", "--json", "--diff", "old.json", *words))
    trial.same("size --diff --json", values["line"], known.CHANGES.splitlines()[-1])
    trial.same("the change of an area", values["areas"][1]["change"], 12)
    said = trial.run(folder, "size", "--diff", "old-map.json", "-C", "a.cfg", "new.map")
    wanted = "ROM +12 bytes: enemies.o +15, main.o -3; ZP +1 byte: main.o +1"
    trial.same("size --diff of maps", said.splitlines()[-1], wanted)


def refused(trial: Trial) -> None:
    """Invalid input: one line, status 2, nothing written."""
    files = {"a.s": "        nop\n", "bad.s": "        bogus\n", "a.cfg": known.script("$8000")}
    row = '{"areas": [], "segments": [], "modules": [{"name": "a", "size": "b"}], "procedures": []}'
    files.update({"old.json": "[1]", "image": "?", "lists.json": row})
    folder = trial.folder(files)
    lines = []
    for command in ("list --cycles", "pages", "unused", "banks"):
        for inputs in ("none.s", "bad.s", "a.s none.o", "--image image a.s"):
            lines.append(f"{command} -C a.cfg {inputs}")
        lines.append(f"{command} -C none.cfg a.s")
    for old in ("none.json", "old.json", "lists.json", "a.s"):
        lines.append(f"size --diff {old} -C a.cfg a.s")
    lines += ["size --diff old.json -C a.cfg none.map", "banks -C a.cfg a.s"]
    lines += ["unused -C a.cfg --entry nowhere a.s", "list --cycles -C a.cfg -o out bad.s"]
    for line in lines:
        ran = builds.work65(trial.program, folder, *line.split(), status=2)
        is_one = ran.stderr.count("\n") == 1 and "Traceback" not in ran.stderr
        is_so = is_one and ran.stdout == "" and set(os.listdir(folder)) == set(files)
        trial.results.check(f"refused: {line}", is_so, ran.stdout + ran.stderr)


def crossed_by_bytes(lines: List[Dict[str, Any]]) -> List[Tuple[str, int]]:
    """The branches that leave their pages, by the bytes of a listing."""
    found = []
    for it in lines:
        data = bytes.fromhex(it["bytes"])
        if it["cycles"] and data[0] & 0x1F == 0x10:
            after = it["address"] + 2
            if after // 256 != (after + int.from_bytes(data[1:], "little", signed=True)) // 256:
                found.append((it["file"], it["line"]))
    return found


def examples(trial: Trial) -> None:
    """Each program of example/."""
    os.makedirs(f"{trial.top}/examples")
    for it in builds.programs(f"{trial.top}/examples"):
        folder = f"{trial.top}/examples/{it.folder}"
        lines = json.loads(trial.run(folder, "list", "--json", *it.words()))["lines"]
        coded = [line for line in lines if INSTRUCTION.match(line["text"]) and line["size"]]
        missing = [line for line in coded if not line["cycles"]]
        trial.results.check(f"{it.name}: cycles", bool(coded) and not missing, missing)
        values = json.loads(trial.run(folder, "pages", "--json", *it.words()))["crossings"]
        found = [(line["file"], line["line"]) for line in values if line["kind"] == "branch"]
        trial.same(f"{it.name}: branches that cross pages", found, crossed_by_bytes(lines))
        said = trial.run(folder, "unused", *it.words())
        trial.results.check(f"{it.name}: unused", " bytes aren't referred to" in said, said)


def documented(trial: Trial) -> None:
    """The outputs in docs/WORKBENCH.md for example/nes."""
    sections = dict(pages.sections(pages.read("docs/WORKBENCH.md"), "##"))
    words = ["-C", "nes.cfg", *(f"nes/{it}.s" for it in ("controller", "main", "player", "tiles"))]
    for command in ("list --cycles", "pages", "unused"):
        heading = command.split()[0]
        said = trial.run(f"{pages.ROOT}/example", *command.split(), *words).splitlines()
        blocks = [it.strip("\n").splitlines() for it in BLOCK.findall(sections[heading])]
        shown = blocks[2] if heading == "list" else blocks[1]
        is_so = set(shown) <= set(said) if heading == "list" else shown == said
        trial.results.check(f"WORKBENCH: {heading}", len(shown) > 4 and is_so, shown)


def makefile(trial: Trial) -> None:
    """The targets of example/Makefile."""
    folder = f"{trial.top}/make"
    shutil.copytree(f"{pages.ROOT}/example/hello", f"{folder}/hello")
    shutil.copy(f"{pages.ROOT}/example/Makefile", folder)
    how = builds.environment(trial.program)
    tools = [f"BIN65={trial.program}", f"WORK65={sys.executable} -m work65"]

    def make(target: str) -> str:
        words = ["make", "-s", *tools, "TARGET=c64", target]
        ran = subprocess.run(words, cwd=folder, env=how, capture_output=True, text=True)
        return f"{ran.stdout}{ran.stderr}status {ran.returncode}"

    made = (make("size"), os.path.exists(f"{folder}/out/hello/c64/size.json"))
    trial.same("make size", made, ("status 0", True))
    text = builds.text_of(f"{folder}/hello/main.s")
    pages.put(f"{folder}/hello/main.s", f"{text} .rodata\n .byte 1,2,3\n")
    said = make("size-diff").splitlines()[-2:]
    trial.same("make size-diff", said, ["PROGRAM +3 bytes: hello/main.s +3", "status 0"])
    said = make("pages").splitlines()[-2:]
    trial.results.check("make pages", said[0].startswith("crossings: "), said)


def large(trial: Trial, count: int) -> None:
    """Each command takes at most five seconds of a processor for itself; if nothing else runs, it takes under three."""
    block = known.LARGE_BLOCK
    parts = [block.replace("NUMBER", str(number)) for number in range(count // 258)]
    files = {f"m{number}.s": known.LARGE_HEAD + "".join(parts) for number in range(20)}
    sources = sorted(files)
    lines = sum(text.count("\n") for text in files.values())
    trial.results.check("the lines of the large program", lines >= count, lines)
    files["a.cfg"] = known.script("$4000").replace("$4000;", "$C000;")
    folder, how = trial.folder(files), builds.environment(trial.program)
    for command in ("list --cycles", "pages", "unused", "size --json"):
        line = [sys.executable, "-c", TIMED, *command.split(), "-C", "a.cfg", *sources]
        ran = subprocess.run(line, cwd=folder, env=how, capture_output=True, text=True, check=False)
        seconds = float(ran.stderr) if re.fullmatch(r"[\d.]+", ran.stderr) else 99.0
        print(f"work65 {command}: {seconds:.1f} s of a processor for {lines} lines")
        trial.results.check(f"{command}: time", seconds < 5, ran.stderr)


def main() -> None:
    program, results = os.path.abspath(sys.argv[1]), builds.Results()
    tests = [whole_table, crossings, comments, sums, references, with_objects, banks, differences]
    tests += [refused, examples, documented, makefile]
    with tempfile.TemporaryDirectory() as top:
        trial = Trial(program, results, top)
        for test in tests:
            test(trial)
        if shutil.which("sim65"):
            simulated(trial)
        else:
            print("sim65 isn't here: no cycles are counted by it")
        if builds.has_cc65():
            cycle_debug.over_cc65(trial)
        else:
            print("cc65 isn't here: no debug file of ld65 is read")
        large(trial, int(sys.argv[2]) if len(sys.argv) > 2 else 20000)
    results.end()


if __name__ == "__main__":
    main()
