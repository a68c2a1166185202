"""Included files, found as docs/LANGUAGE.md says, and what a set of files has in common."""
import os
import tempfile

import rows
from work65.frontend.files import Text, text_of, walked
from work65.frontend.includes import find_file, followed, names_in
from work65.frontend.survey import surveyed
from work65.problem import Problem

NAMES = {
    '.include "a.inc"': ["a.inc"],
    ' .INCLUDE "a b.inc" ; c': ["a b.inc"],
    'l: .include "a.inc"': ["a.inc"],
    '; .include "a.inc"': [],
    '.incbin "a.bin"': [],
    ".include a.inc": [],
    '.include "open': [],
    '.byte ".include"|.include "b.inc"': ["b.inc"],
}
# Files of a tree; the number of blanks before a name in a row is none.
TREE = {
    "main.s": '.include "part.inc"\n', "part.inc": '.include "deep.inc"\n', "lib/deep.inc": " nop\n", "lib/part.inc": " nop\n",
    "lib/other.inc": '.include "part.inc"\n', "loop.inc": '.include "loop.inc"\n', "notes.txt": "no source\n", "game.cfg": "MEMORY { }\n",
    "makefile.inc": "all:\n",
}  # fmt: skip
# The file that includes, the name, the folders of -I, and the file that is found.
FOUND = {
    ("main.s", "part.inc", ""): "part.inc",
    ("main.s", "part.inc", "lib"): "part.inc",
    ("main.s", "deep.inc", "lib"): "lib/deep.inc",
    ("main.s", "deep.inc", ""): None,
    ("lib/other.inc", "part.inc", ""): "lib/part.inc",
    ("main.s", "lib/deep.inc", ""): "lib/deep.inc",
    ("main.s", "lib", ""): None,
}
FOLLOWED = {("main.s", ""): "part.inc", ("main.s", "lib"): "part.inc lib/deep.inc", ("loop.inc", ""): "", ("lib/other.inc", ""): "lib/part.inc"}
# Bytes of a file, its lines, and their ends.
LINES = {
    b"": ([], []),
    b"a\nb": (["a", "b"], ["\n", ""]),
    b"a\r\nb\n": (["a", "b"], ["\r\n", "\n"]),
    b"a\rb\n": (["a\rb"], ["\n"]),
    b"\n\n": (["", ""], ["\n", "\n"]),
    b"\xe9\xff": (["\xe9\xff"], [""]),
}
SURVEY = ".macro m p|.endmacro|.mac k|.endmac|.define D 5|.struct S|.endstruct|.feature C_Comments, string_escapes|n = 5|l: nop|.proc p|.endproc"


class Includes(rows.Rows):
    """Files."""

    def setUp(self):
        self.room = tempfile.TemporaryDirectory()
        self.before = os.getcwd()
        os.chdir(self.room.name)
        for name, text in TREE.items():
            os.makedirs(os.path.dirname(name) or ".", exist_ok=True)
            with open(name, "w", encoding="utf-8") as it:
                it.write(text)

    def tearDown(self):
        os.chdir(self.before)
        self.room.cleanup()

    def test_names(self):
        self.rows(NAMES, lambda text: list(names_in(Text("a.s", text.split("|"), []))))

    def test_found(self):
        self.rows(FOUND, lambda row: find_file(row[1], row[0], row[2].split()))

    def test_followed(self):
        self.rows(FOLLOWED, lambda row: " ".join(it.path for it in followed([text_of(row[0])], row[1].split())))

    def test_lines(self):
        def read(data):
            with open("x.s", "wb") as it:
                it.write(data)
            found = text_of("x.s")
            return found.lines, found.ends

        self.rows(LINES, read)

    def test_walked(self):
        rest = "./game.cfg ./loop.inc ./main.s ./part.inc ./lib/deep.inc ./lib/other.inc ./lib/part.inc"
        self.rows({".": rest, "main.s": "main.s", "notes.txt": "notes.txt", "lib": "lib/deep.inc lib/other.inc lib/part.inc"},
                  lambda path: " ".join(walked([path])))

    def test_missing(self):
        def read(name):
            try:
                return text_of(name).path
            except Problem as problem:
                return str(problem)

        self.rows({"none.s": "none.s: No such file or directory", "lib": "lib: Is a directory", "/dev/null": "/dev/null: not a regular file"}, read)

    def test_survey(self):
        found = surveyed([Text("a.s", SURVEY.split("|"), [])])
        wanted = {"macros": {"m": [("a.s", 1)], "k": [("a.s", 3)]}, "defines": {"D"}, "features": {"c_comments", "string_escapes"},
                  "structures": {"S"}, "names": {"m", "k", "D", "n", "l", "p"}, "missing": [], "is_whole": True}
        self.rows(wanted, lambda name: getattr(found, name))
