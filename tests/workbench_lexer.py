#!/usr/bin/env python3
"""Compares work65's lexer with bin65's: both must split each line of the sources here into the same tokens.

bin65 doesn't print tokens, but its results show them:
- a line has a lexical error in bin65 exactly if the lexer finds a token in it that bin65 doesn't have;
- a source gives the same object with one space between each two tokens, and without any space that the lexer doesn't need;
- a space within a token gives another object, or an error.

The lines are those of all texts of tests/ and example/, of cc65's own include files if they are there, and of each FOLDER.

usage: workbench_lexer.py BIN65 [FOLDER]..: the last line is 'N passed, M failed'."""
import glob
import os
import re
import shutil
import subprocess
import sys
import tempfile
from concurrent.futures import ThreadPoolExecutor

import pages

sys.path.insert(0, f"{pages.ROOT}/workbench")
from work65.diagnosing.search import LEXICAL  # noqa: E402
from work65.frontend import grammar, words  # noqa: E402
from work65.frontend.tokens import Kind, line_of  # noqa: E402

ASMINC = "/usr/share/cc65/asminc"
SOURCES = (".s", ".inc", ".mac", ".asm")
TEXTS = (*SOURCES, ".txt", ".md", ".cfg")
# Tokens that ca65 alone has, and lines of macros and files of others that it reads: bin65 splits them into tokens of its own.
OWN_OF_CA65 = re.compile(r"f:|:[<>]+", re.I)
# A source in which a token of a kind means something.
FORMS = {
    Kind.NAME: "{0} = 5\n.byte {0}", Kind.CHEAP: "n:\n{0}: bne {0}", Kind.NUMBER: ".dword {0}", Kind.UNNAMED: ":\n:\n:\n:\nbne {0}\n:\n:\n:\n:",
    Kind.PREFIX: "lda {0}5", Kind.SIGN: ".dword 9 {0} 2",
}
OTHER_FORMS = {"::": ".scope s\nn = 6\n.endscope\n.byte s{0}n", ":=": "n {0} 5\n.byte n"}
TOGETHER, SHOWN = 20000, 10


class Tries:
    """Runs bin65 on small sources, and counts."""

    def __init__(self, program, room):
        self.program, self.room = os.path.abspath(program), room
        self.passed = self.failed = 0

    def check(self, name, is_so, found=""):
        self.passed, self.failed = self.passed + bool(is_so), self.failed + (not is_so)
        if not is_so and self.failed <= SHOWN:
            print(f"{name}: {found}")

    def run(self, source, made, *options):
        """Assembles a file. Returns the object, or the last line of the message."""
        ran = subprocess.run([self.program, "ca65", "-o", made, *options, "--", source], capture_output=True, check=False)
        if ran.returncode:
            return ran.stderr.decode("latin-1").rstrip("\n").split("\n")[-1]
        with open(made, "rb") as it:
            return it.read()

    def assembled(self, text, name="a"):
        """Assembles a text."""
        with open(f"{self.room}/{name}.s", "w", encoding="latin-1", newline="") as it:
            it.write(text)
        return self.run(f"{self.room}/{name}.s", f"{self.room}/{name}.o")


def is_lexical(said):
    """Returns whether a message is that of a token which bin65 doesn't have."""
    return isinstance(said, str) and said.rpartition("Error: ")[2] in LEXICAL


def files_in(folders, ends):
    """Returns the files of folders, by the ends of their names."""
    found = [it for folder in folders for it in glob.glob(f"{folder}/**/*", recursive=True)]
    return sorted(it for it in found if it.endswith(ends) and os.path.isfile(it))


def lines_of(files):
    """Returns the lines of files, each once, as bin65 reads them."""
    found = {}
    for file in files:
        with open(file, encoding="latin-1", newline="") as it:
            found.update(dict.fromkeys(line[:-1] if line.endswith("\r") else line for line in it.read().split("\n")))
    return list(found)


def is_wrong(line):
    """Returns whether the lexer finds a token in a line that bin65 doesn't have."""
    tokens = line_of(line).tokens
    return len(line) > 4096 or any(grammar.shape_of(it) == "bad" and not OWN_OF_CA65.fullmatch(it.text) for it in tokens)


def errors(tries, lines):
    """bin65 reports a lexical error for the lines in which the lexer finds one, and for no others."""
    wrong = [it for it in lines if is_wrong(it)]
    with ThreadPoolExecutor(2) as pool:
        said = pool.map(lambda it: tries.assembled(it[1] + "\n", f"wrong{it[0]}"), enumerate(wrong))
        for line, one in zip(wrong, said):
            tries.check("a lexical error that bin65 doesn't report", is_lexical(one), f"{line!r}: {one!r}")
    # A name before them keeps lines from ending the macro in which they are.
    good = [it for it in lines if it.strip() and not is_wrong(it)]
    for at in range(0, len(good), TOGETHER):
        part = good[at : at + TOGETHER]
        for _ in range(SHOWN):
            said = tries.assembled(".macro m\n" + "".join(f"x {it}\n" for it in part) + ".endmacro\n")
            number = re.search(r":(\d+): Error: ", said) if isinstance(said, str) else None
            if number is None:
                break
            tries.check("a lexical error that bin65 alone reports", False, f"{part[int(number[1]) - 2]!r}: {said}")
            part[int(number[1]) - 2] = ""
        tries.check("lines without a lexical error", isinstance(said, bytes), said)
    for line in [it for it in good if re.match(r"[ \t]*[a-z]:", it, re.I)]:
        tries.check("a label of one letter", not is_lexical(tries.assembled(line + "\n")), repr(line))


def spaced(line):
    """Returns a line with one blank between each two tokens."""
    return " ".join(it.text for it in line_of(line).tokens)


def squeezed(line):
    """Returns a line without the blanks that its tokens don't need."""
    found = ""
    texts = [it.text for it in line_of(line).tokens]
    for at, text in enumerate(texts):
        joined = [it.text for it in line_of(found + text).tokens]
        found += text if joined == texts[: at + 1] else f" {text}"
    return found


def rewritten(tries, folders):
    """Sources give the same object whatever blanks are between their tokens."""
    copies = {}
    for kind, change in (("plain", lambda it: it), ("spaced", spaced), ("squeezed", squeezed)):
        copies[kind] = f"{tries.room}/{kind}"
        for number, folder in enumerate(folders):
            for file in files_in([folder], SOURCES):
                place = f"{copies[kind]}/{number}/{os.path.relpath(file, folder)}"
                os.makedirs(os.path.dirname(place), exist_ok=True)
                with open(file, encoding="latin-1", newline="") as it:
                    lines = it.read().split("\n")
                with open(place, "w", encoding="latin-1", newline="") as it:
                    it.write("\n".join(change(line[:-1] if line.endswith("\r") else line) for line in lines))
    sources = [os.path.relpath(it, copies["plain"]) for it in files_in([copies["plain"]], (".s", ".asm"))]

    def objects(name):
        # Each run sees the same names: an object has those of its files.
        found = []
        for kind, root in copies.items():
            top = os.path.join(root, name.split(os.sep)[0])
            options = [f"-I{it}" for it in (ASMINC, f"{top}/asminc", f"{top}/libsrc", top)]
            made = os.path.join(root, f"{name.replace(os.sep, '_')}.o")
            ran = subprocess.run([tries.program, "ca65", "-o", made, *options, "--", name], cwd=root, capture_output=True, check=False)
            with open(made, "rb") as it:
                found.append(it.read().replace(kind.encode(), b"") if not ran.returncode else ran.stderr.decode("latin-1"))
            os.remove(made)
        return found

    def tried(name):
        try:
            return objects(name)
        except OSError:
            return None

    count = 0
    with ThreadPoolExecutor(2) as pool:
        for name, found in zip(sources, pool.map(tried, sources)):
            if found is not None:
                count += 1
                tries.check(f"{name} with other blanks", found[0] == found[1] == found[2], [it if isinstance(it, str) else len(it) for it in found])
    tries.check("sources that bin65 accepts", count > 40, count)


def pattern_of(text):
    """Returns a token's characters by their classes, runs shortened to two."""
    classes = re.sub("[0-9]", "0", re.sub("[A-Za-z_]", "a", text))
    return re.sub(r"(.)\1\1+", r"\1\1", classes)


def split(tries, lines):
    """A blank within a token gives another object or an error, for one token of each pattern."""
    found = {}
    for line in lines:
        if not is_wrong(line):
            for it in line_of(line).tokens:
                is_plain = it.kind is not Kind.NAME or it.lower not in words.MNEMONICS | words.REGISTERS
                if len(it.text) > 1 and it.kind in FORMS and is_plain and not OWN_OF_CA65.fullmatch(it.text):
                    found.setdefault((it.kind, pattern_of(it.text)), it.text)
    for (kind, _), text in found.items():
        form = OTHER_FORMS.get(text, FORMS[kind]) + "\n"
        whole = tries.assembled(form.format(text))
        tries.check(f"the token {text}", isinstance(whole, bytes), whole)
        for at in range(1, len(text)):
            parts = tries.assembled(form.format(f"{text[:at]} {text[at:]}"))
            tries.check(f"the token {text}, split", parts != whole, f"{text[:at]} {text[at:]}")
    tries.check("kinds of tokens", {kind for kind, _ in found} == set(FORMS), found.keys())


def main():
    program, more = sys.argv[1], [os.path.abspath(it) for it in sys.argv[2:]]
    own = [f"{pages.ROOT}/example", f"{pages.ROOT}/tests"]
    others = [ASMINC] if os.path.isdir(ASMINC) else []
    room = tempfile.mkdtemp()
    try:
        tries = Tries(program, room)
        lines = lines_of(files_in([*own, f"{pages.ROOT}/docs", *others, *more], TEXTS))
        errors(tries, lines)
        split(tries, lines)
        rewritten(tries, [f"{pages.ROOT}/example", *more])
    finally:
        shutil.rmtree(room)
    print(f"{len(lines)} lines")
    print(f"{tries.passed} passed, {tries.failed} failed")
    return int(tries.failed > 0)


if __name__ == "__main__":
    sys.exit(main())
