#!/usr/bin/env python3
"""Checks docs/EDITORS.md: every message of the three commands is matched with the patterns of each editor on the page. Where the message has a
line, a pattern must find the file, the line, the kind and the text; elsewhere it must find nothing.

The patterns of Emacs and VS Code are regular expressions, converted to Python's syntax. Vim's `errorformat` is interpreted by its manual:
`%f` and `%m` match a string up to the following text, `%l` a number, `%t` one character, and `%*[..]` characters that are skipped. If Vim is
installed, it also reads the messages itself; if Node is, it runs VS Code's expression.

usage: editors.py BIN65. The last line is 'N passed, M failed'."""
import json
import os
import re
import shutil
import subprocess
import sys
import tempfile

import pages

SCRIPT = """MEMORY { ROM: start = $8000, size = $10; }
SEGMENTS { CODE: load = ROM, type = ro; }
SYMBOLS { big: type = export, value = 256; zero: type = export, value = 0; }
"""
FILES = {
    "s.cfg": SCRIPT,
    "bad.cfg": SCRIPT + "MEMORY {\n",
    "ok.s": "nop\n",
    "a.s": "nop\n.byte 256\n",
    "with.s": 'nop\n.include "inc/b.inc"\n',
    "inc/b.inc": "\n\n.byte 256\n",
    "said.s": '.warning "look: here"\n.assert 0, warning, "there: 2"\n',
    "wide.s": '.import big\n.include "inc/wide.inc"\n',
    "inc/wide.inc": "nop\n.byte big\n",
    "src/my game.s": ".import big\nnop\n.byte big\n",
    "export.s": ".import zero\n.export e\ne = 1/zero\n",
    "refused.s": '.import zero\nnop\n.assert zero, error, "a: 1: b"\n',
    "warned.s": '.import zero\nnop\n.assert zero, warning, "w"\n.include "inc/warned.inc"\n',
    "inc/warned.inc": '.assert zero, warning, "also"\n',
    "member.s": ".export m\n.import big\nm: .byte big\n",
    "main.s": ".import m\n.byte <m\n",
}
# An object as the first release wrote it, of `.import big` and, in its line 2, `.byte big`.
OLD = bytes.fromhex("52 36 35 6F 01  01 0300 626967  02 0900 01000000 00 434F4445  05 0A00 00 02000000 02 00000000  08 0000")
# Lines for the program, and for each message its file, its line, its kind and its text, or None where no line is in it.
RUNS = [
    ("ca65 a.s", [("a.s", 2, "Error", "out of range")]),
    ("ca65 with.s", [("inc/b.inc", 3, "Error", "out of range")]),
    ("ca65 said.s", [("said.s", 1, "Warning", "look: here"), ("said.s", 2, "Warning", "there: 2")]),
    ("ca65 none.s", [None]),
    ("ca65", [None]),
    ("ca65 ok.s", []),
    ("ld65 -C bad.cfg ok.o", [("bad.cfg", 5, "Error", "syntax error")]),
    ("ca65 wide.s", []),
    ("ld65 -C s.cfg ok.o wide.o", [("inc/wide.inc", 2, "Error", "out of range")]),
    ("ca65 -o my.o 'src/my game.s'", []),
    ("ld65 -C s.cfg my.o", [("src/my game.s", 3, "Error", "out of range")]),
    ("ca65 export.s", []),
    ("ld65 -C s.cfg export.o", [("export.s", 2, "Error", "zero divisor or bad shift count")]),
    ("ca65 refused.s", []),
    ("ld65 -C s.cfg refused.o", [("refused.s", 3, "Error", "a: 1: b")]),
    ("ca65 warned.s", []),
    ("ld65 -C s.cfg warned.o", [("warned.s", 3, "Warning", "w"), ("inc/warned.inc", 1, "Warning", "also")]),
    ("ca65 member.s", []),
    ("ca65 main.s", []),
    ("ar65 r l.lib member.o", []),
    ("ld65 -C s.cfg main.o l.lib", [("member.s", 3, "Error", "out of range")]),
    ("ar65 d l.lib none.o", [None]),
    ("ld65 -C s.cfg old.o", [("old.o", 2, "Error", "out of range")]),
    ("ld65 -C s.cfg main.o", [None]),
]
KINDS = {"E": "Error", "W": "Warning"}


def block(page, name):
    """Returns the text of a page's only block of a kind."""
    (found,) = re.findall(rf"^```{name}\n(.*?)^```$", page, re.M | re.S)
    return found


def vim_forms(line):
    """Returns the patterns of a line `set errorformat=..`, by the rules of Vim's manual."""
    value = re.sub(r"\\(.)", r"\1", line.strip().removeprefix("set errorformat="))
    part = re.compile(r"%\*(\[[^]]*\])|%([fltm])|(.)")
    meaning = {"f": "(?P<file>.+?)", "l": r"(?P<line>\d+)", "t": "(?P<kind>.)", "m": "(?P<text>.+)"}
    return [
        re.compile("".join(f"{it[1]}+" if it[1] else meaning[it[2]] if it[2] else re.escape(it[3]) for it in part.finditer(form)))
        for form in value.split(",")
    ]


def by_vim(page):
    forms = vim_forms(block(page, "vim"))

    def find(message):
        it = next(filter(None, (form.fullmatch(message) for form in forms)), None)
        return it and (it["file"], int(it["line"]), KINDS[it["kind"]], it["text"])

    return find


def by_emacs(page):
    lisp = block(page, "elisp")
    text, groups = re.search(r'\(bin65 "((?:[^"\\]|\\.)*)" ([^)]*\)?)\)', lisp).groups()
    if groups != "1 2 nil (3)":
        raise SystemExit(f"the groups of Emacs' pattern are {groups}")
    text = re.sub(r"\\(.)", lambda it: "\n" if it[1] == "n" else it[1], text)
    # Emacs' grouping and alternatives have a backslash, and bare signs of these are themselves.
    text = re.sub(r"\\([(|)])|([(|)])", lambda it: it[1] or "\\" + it[2], text)
    form = re.compile(text)

    def find(message):
        it = form.match(message)
        return it and (it[1], int(it[2]), "Warning" if it[3] else "Error", message[it.end() :])

    return find


def code_pattern(page):
    return json.loads(block(page, "json"))["pattern"]


def by_code(page):
    pattern = code_pattern(page)
    form = re.compile(pattern["regexp"])

    def find(message):
        it = form.search(message)
        return it and (it[pattern["file"]], int(it[pattern["line"]]), it[pattern["severity"]], it[pattern["message"]])

    return find


def by_node(page):
    """Runs VS Code's expression in JavaScript."""
    pattern = code_pattern(page)
    parts = [pattern[it] for it in ("file", "line", "severity", "message")]
    code = "const [form, message] = process.argv.slice(1); console.log(JSON.stringify(new RegExp(form).exec(message)))"

    def find(message):
        ran = subprocess.run(["node", "-e", code, pattern["regexp"], message], capture_output=True, check=True)
        it = json.loads(ran.stdout)
        return it and (it[parts[0]], int(it[parts[1]]), it[parts[2]], it[parts[3]])

    return find


def by_vim_itself(page):
    """Returns the entry that Vim makes of a message in its list of errors."""
    setting = block(page, "vim").strip()
    ask = "let it = getqflist()[0]"
    say = "call writefile([json_encode([it.valid, bufname(it.bufnr), it.lnum, it.type, it.text])], 'found')"

    def find(message):
        with open("message", "w", encoding="utf-8") as it:
            it.write(message + "\n")
        words = ["-Nu", "NONE", "-es", "-c", setting, "-c", "cgetfile message", "-c", ask, "-c", say, "-c", "qall!"]
        subprocess.run(["vim", *words], stdin=subprocess.DEVNULL, capture_output=True, timeout=60, check=False)
        with open("found", encoding="utf-8") as it:
            valid, file, line, kind, text = json.load(it)
        return (file, line, KINDS[kind], text) if valid else None

    return find


def finders(page):
    """Returns, for each editor, the function that matches a message."""
    found = {"Vim's pattern": by_vim(page), "Emacs' pattern": by_emacs(page), "VS Code's pattern": by_code(page)}
    if shutil.which("vim"):
        found["Vim"] = by_vim_itself(page)
    if shutil.which("node"):
        found["Node"] = by_node(page)
    return found


def make_files():
    for name, text in FILES.items():
        os.makedirs(os.path.dirname(name) or ".", exist_ok=True)
        with open(name, "w", encoding="utf-8") as it:
            it.write(text)
    with open("old.o", "wb") as it:
        it.write(OLD)


def wrong_of(wanted, message, editors):
    """Returns what the editors get wrong in a message."""
    for name, find in editors.items():
        it = find(message)
        if it != wanted:
            yield f"{name} finds {it} in {message!r}, and not {wanted}"
    if wanted and not os.path.exists(wanted[0]):
        yield f"{wanted[0]} isn't there"


def main():
    program, page = os.path.abspath(sys.argv[1]), pages.read("docs/EDITORS.md")
    editors, passed, failed = finders(page), 0, 0
    with tempfile.TemporaryDirectory() as top:
        tools = pages.tools_of(program, f"{top}/tools")
        os.makedirs(f"{top}/files")
        os.chdir(f"{top}/files")
        make_files()
        for words, wanted in RUNS:
            messages = pages.run(f"bin65 {words}", tools, ".").splitlines()
            faults = [] if len(messages) == len(wanted) else [f"it says {messages}"]
            faults += [fault for it, message in zip(wanted, messages) for fault in wrong_of(it, message, editors)]
            for it in faults:
                print(f"bin65 {words}: {it}")
            passed, failed = passed + (not faults), failed + bool(faults)
        os.chdir("/")
    print(f"{passed} passed, {failed} failed")
    sys.exit(failed > 0)


main()
