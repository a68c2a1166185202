"""Linker scripts: their tokens, and their blocks, entries and attributes, as docs/SCRIPTS.md and cc65's ld65 have them."""
import rows
from work65.frontend.link_script import read_script, with_files
from work65.frontend.script_sums import accepted_number, number_of, value_of
from work65.frontend.scripts import blocks_of, symbols_of, words_of
from work65.problem import Problem

WORDS = {
    "": "",
    "# a comment": "",
    "size=9;": "word size  sign =  number 9  sign ;",
    "0size": "number 0  word size",
    "start = $8000, size = $10;": "word start  sign =  number $8000  sign ,  word size  sign =  number $10  sign ;",
    'file = "a b.bin"': 'word file  sign =  string "a b.bin"',
    'file = "";': 'word file  sign =  string ""  sign ;',
    "file = %O;": "word file  sign =  output %O  sign ;",
    "start = %S;": "word start  sign =  output %S  sign ;",
    "%101": "number %101",
    "0x1F 4k 2K": "number 0x1F  number 4k  number 2K",
    "A-B+1": "word A  sign -  word B  sign +  number 1",
    '"open\nnext': 'string "open  word next',
    "a # b { }\nc": "word a  word c",
}
# Where each word of a text is: its line.
LINES = "MEMORY {\n# a comment\n\n  A: start = 1,\r\n  size = 2; }"
LINES_OF = {"MEMORY": 1, "A": 4, "1": 4, "size": 5, "}": 5}
# A script, and its blocks: each entry's name with its attributes.
SCRIPTS = {
    "": "",
    "MEMORY { }": "MEMORY{}",
    "MEMORY { A: start = $10, size = 5; }": "MEMORY{A(start $10)(size 5)}",
    "memory { A: start $10 size 5; }": "memory{A(start $10)(size 5)}",
    "MEMORY { A: start = $10, size = 5,; }": "MEMORY{A(start $10)(size 5)}",
    "MEMORY { A: start = B + 2 - C size = 5; B: size = 1; }": "MEMORY{A(start B + 2 - C)(size 5) B(size 1)}",
    "MEMORY { A: size = (5 * 2) - 1, file = %O; }": "MEMORY{A(size ( 5 * 2 ) - 1)(file %O)}",
    'MEMORY { A: file = "x.bin", fill = yes; } SEGMENTS { C: load = A; }': 'MEMORY{A(file "x.bin")(fill yes)} SEGMENTS{C(load A)}',
    "SYMBOLS { s: type = weak, value = $1000; } SYMBOLS { t: type = import; }": "SYMBOLS{s(type weak)(value $1000)} SYMBOLS{t(type import)}",
    "FEATURES { STARTADDRESS: default = $801; }": "FEATURES{STARTADDRESS(default $801)}",
    "MEMORY { A: start = 1": "MEMORY{A(start 1)}",
}
SYMBOLS = {
    "SYMBOLS { a: type = weak, value = 1; b: value = 2, type = EXPORT; c: value = 3; }": {"a": "weak", "b": "export", "c": ""},
    "symbols { a: type = import; } MEMORY { M: type = ro; }": {"a": "import"},
    "MEMORY { M: type = ro; }": {},
}
# Sums, and their values where B is 10 and U has none: a `-` subtracts only what follows it; cc65 has products and parentheses, too.
SUMS = {
    "5": 5, "$10 + 1": 17, "9 - 3 + 1": 7, "2 - 3 + 1": 0, "B + 2": 12, "B - B": 0, "2 + 3 * 4": 14, "(2 + 3) * 4": 20, "9 / 2": 4,
    "-1 + 2": 1, "%101": 5, "0x10": 16, "4k": 4096, "1K + 1": 1025, "U": None, "U + 1": None, "5 +": None, "": None, "1 2": None,
    "(1": None, "1 / 0": None, '"a"': None,
}  # fmt: skip
NUMBERS = {"10": "10", "$1F": "$1F", "0x1F": "$1F", "0XFF": "$FF", "%101": "$05", "%10101010": "$AA", "2k": "$0800", "64K": "$10000", "%102": "%102",
           "k": "k", "B": "B"}
# A script that bin65 accepts: its areas as (name, start, size, file, filled), its segments, and its exports.
WHOLE = """MEMORY { ZP: start = 0, size = $100, file = ""; ROM: start = B, size = $8000 - B, fill = YES, file = "x.bin"; }
SEGMENTS { CODE: load = ROM, type = RO; DATA: load = ROM, run = ZP, type = rw; BSS: load = ZP; }
SYMBOLS { B: type = export, value = $10; W: type = import; }"""
AREAS = [("ZP", "0", "$100", "", False), ("ROM", "B", "$8000 - B", "x.bin", True)]
SEGMENTS = [("CODE", "ROM", "ROM", "ro"), ("DATA", "ROM", "ZP", "rw"), ("BSS", "ZP", "ZP", "rw")]
NO_SCRIPTS = ("MEMORY { A: start = 1; }", "SEGMENTS { C: type = ro; }", "MEMORY { A: start = 1, size = 1;", "SYMBOLS { a: value = b; }")
# The names of files are replaced by plain ones, and `out` by that of the output.
FILES = {
    "MEMORY { }": ("MEMORY { }", {}),
    'file = "x";': ('file = "area0";', {"area0": "x"}),
    'file = "x y", file = "z", file = "x y"': ('file = "area0", file = "area1", file = "area0"', {"area0": "x y", "area1": "z"}),
    'file = "out"; # "x"': ('file = %O; # "x"', {}),
    'file = ""; file = %O;': ('file = ""; file = %O;', {}),
}


def renamed(text):
    """Returns a text with plain names for files, and the name for each of them."""
    new, names = with_files(text, "out")
    return new, {plain.strip('"'): name for plain, name in names.items()}


def refused(text):
    """Returns whether a text is no script."""
    try:
        read_script(text, "a.cfg")
    except Problem as problem:
        return str(problem) == "a.cfg is no valid script: run bin65 ld65 for the error"
    return False


def shown(text):
    """The blocks of a script."""
    found = []
    for block in blocks_of(words_of(text)):
        entries = (it.name.text + "".join(f"({one.name.text} {rows.plain(one.value)})" for one in it.attributes) for it in block.entries)
        found.append(f"{block.word.text}{{{' '.join(entries)}}}")
    return " ".join(found)


class Scripts(rows.Rows):
    """Scripts."""

    def test_words(self):
        self.rows(WORDS, lambda text: "  ".join(f"{it.kind} {it.text}" for it in words_of(text)))

    def test_places(self):
        self.rows(dict.fromkeys((*WORDS, LINES), True), lambda text: all(text[it.start : it.end] == it.text for it in words_of(text)))

    def test_lines(self):
        self.rows(LINES_OF, {it.text: it.line for it in words_of(LINES)}.get)

    def test_blocks(self):
        self.rows(SCRIPTS, shown)

    def test_attributes(self):
        entry = blocks_of(words_of("MEMORY { A: START = 1 + 2, size = 5; }"))[0].entries[0]
        self.rows({"START": "1 + 2", "SIZE": "5", "FILE": ""}, lambda name: rows.plain(entry.get(name)))

    def test_symbols(self):
        self.rows(SYMBOLS, lambda text: {name: kind for name, (_, kind) in symbols_of(blocks_of(words_of(text))).items()})

    def test_sums(self):
        self.rows(SUMS, lambda text: value_of(words_of(text), {"B": 10, "U": None}))

    def test_numbers(self):
        self.rows(NUMBERS, accepted_number)
        self.rows({"10": 10, "$1f": 31, "0x1f": 31, "4k": 4096, "%11": 3}, number_of)

    def test_whole(self):
        found = read_script(WHOLE, "a.cfg")
        areas = [(it.name, rows.plain(it.start), rows.plain(it.size), it.file, it.is_filled) for it in found.areas]
        segments = [(it.name, it.load, it.run, it.kind) for it in found.segments]
        self.rows({"areas": AREAS, "segments": SEGMENTS, "exports": {"B": 16}},
                  {"areas": areas, "segments": segments, "exports": found.exports}.get)
        self.rows({"CODE": "ROM", "DATA": "ZP", "NONE": None}, lambda name: getattr(found.segment(name), "run", None))

    def test_no_scripts(self):
        self.rows(dict.fromkeys(NO_SCRIPTS, True), refused)

    def test_files(self):
        self.rows(FILES, renamed)
