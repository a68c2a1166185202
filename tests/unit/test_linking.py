"""Links of cc65's objects: command lines of ld65, configs, sums, the parts of areas, and load files of Atari's system."""
import os
import re
import tempfile

import rows
from work65.frontend.scripts import words_of
from work65.linking.call import read_call
from work65.linking.config import Atari, Given, named, read_config
from work65.linking.containers import Piece, atari
from work65.linking.layout import laid_out
from work65.linking.linear import Linear, name, read
from work65.linking.names import Names
from work65.problem import Problem

FILES = ("a.cfg", "a.o", "b.o", "l.lib", "sub/c.cfg", "sub/m.lib", "sub/d.o", "env/e.lib", "home/lib/f.lib", "home/cfg/g.cfg")
ENVIRONMENT = {"LD65_LIB": "env", "CC65_HOME": "home"}
# The words of a command line, and what it asks for: the config, the output, the inputs with their groups, and the rest.
CALLS = {
    "-C a.cfg a.o": "a.cfg a.out a.o",
    "a.o -o x -Ca.cfg b.o": "a.cfg x a.o b.o",
    "-t g a.o": "home/cfg/g.cfg a.out a.o",
    "--config a.cfg --obj a.o --lib l.lib": "a.cfg a.out a.o l.lib",
    "-C c.cfg --cfg-path sub a.o": "sub/c.cfg a.out a.o",
    "-C a.cfg -L sub m.lib a.o": "a.cfg a.out sub/m.lib a.o",
    "-C a.cfg -Lsub a.o m.lib e.lib f.lib": "a.cfg a.out a.o sub/m.lib env/e.lib home/lib/f.lib",
    "-C a.cfg --obj-path sub d.o": "a.cfg a.out sub/d.o",
    "-C a.cfg a.o -( l.lib a.o -) --start-group l.lib --end-group l.lib": "a.cfg a.out a.o l.lib/1 a.o/1 l.lib/2 l.lib",
    "-C a.cfg a.o -D n=$1F -D m=0x10 --define o=010 -D p=12": "a.cfg a.out a.o n=31 m=16 o=8 p=12",
    "-C a.cfg a.o -u n --force-import m -S 0x801": "a.cfg a.out a.o u:n u:m S:2049",
    "-C a.cfg a.o -m map -Ln labels --dbgfile d -vm -v": "a.cfg a.out a.o m:map Ln:labels dbg:d",
    "-C a.cfg a.o -Lnlabels -mmap": "a.cfg a.out a.o m:map Ln:labels",
    "-C a.cfg a.o --allow-multiple-definition": "a.cfg a.out a.o twice",
    "@answers": "a.cfg a.out a.o n=5",
    "--version": None, "-h": None, "-C a.cfg": None,
    "-C a.cfg none.o": "none.o: no such file", "-C none.cfg a.o": "none.cfg: no such file", "a.o": "ld65 is given neither a config nor a target",
    "-C a.cfg -t c64 a.o": "-C or -t is given twice, which ld65 doesn't take", "-C a.cfg a.o -D n": "-D n: no name with a value",
    "-C a.cfg a.o -D n=x": "x: no number that ld65 takes", "-C a.cfg a.o -m": "-m: the option lacks its value",
    "-C a.cfg a.o --bogus": "--bogus: no option of ld65's", "--config=a.cfg a.o": "--config=a.cfg: no option of ld65's",
    "-C a.cfg a.o -vv": "-vv: no option of ld65's", "-C a.cfg a.o -": "-: no option of ld65's", "-V --bogus": None, "-C a.cfg a.o -help": None,
    "-C a.cfg a.o -D 3x=1": "-D 3x=1: no name with a value", "-C a.cfg a.o -D x.y=1": "-D x.y=1: no name with a value",
    "-C a.cfg a.o -D n=1 -D n=1": "-D defines a symbol twice, which ld65 doesn't take", "-C a.cfg a.o -D _n=1z": "a.cfg a.out a.o _n=1",
    "-C a.cfg a.o -S 1 -S 1": "-S is given twice, which ld65 doesn't take", "-C a.cfg a.o -( -(": "-(: a group is open",
    "-C a.cfg a.o -)": "-): a group is not open", "-C a.cfg a.o -( l.lib": "a group isn't closed",
    "-C a.cfg a.o --module-id 65536": "--module-id is out of range", "-C a.cfg a.o --module-id x": "x: no number that ld65 takes",
    "-C a.cfg a.o --large-alignment -vmx --dbgfile d --dbgfile e": "a.cfg a.out a.o dbg:e",
    "-C a.cfg a.o @no": "no: No such file or directory",
}  # fmt: skip
# Sums where A is a name of bin65's and N is 5.
SUMS = {
    "1 + 2 * 3": "$7", "A": "A", "A + 1": "$1 + A", "A - 1": "A - $1", "1 - A": "$1 - A", "-A": "$0 - A", "2 * A - A": "A", "A - A": "$0",
    "3 * (A + 2)": "$6 + A + A + A", "A / 1": None, "A * A": None, "7 / 2": "$3", "-7 / 2": "$0 - $3", "- - 3": "$3", "+5": "$5",
    "N * 2": "$A", "A + N": "$5 + A", "U": None, "A B": None, "": None,
}  # fmt: skip
NAMES = {"%O": "game", "%O.1": "game.1", "x%O%O": "xgamegame", "a%%b": "a%b", "%%O": "%O", "%S": "%S"}
AREA = 'MEMORY { M: start = $800, size = $100, file = "f"%s; Z: start = 0, size = 9, file = ""; }\nSEGMENTS { %s }\n'
# What follows an area's file, its rows, and its parts: the file of each, its start, its size, whether it's filled, and its rows. START1 is
# the start of the first part. C has 3 bytes and D has 2, B (bss) has 4, E has none, and no module has X.
REST = "START1 + SIZE1 - LAST1"
PARTS = {
    ("", "C: load = M;"): ["f: $800, $100: C"],
    ("", "C: load = M; D: load = M;"): ["f: $800, $100: C D"],
    ("", "C: load = M; X: load = M; D: load = M;"): ["f: $800, $100: C D"],
    ("", "C: load = M; B: load = M, type = bss;"): ["f: $800, $100: C", f"none: LAST1, {REST}: B"],
    ("", "B: load = M, type = bss; C: load = M;"): ["none: $800, $100: B", f"f: LAST1, {REST}: C"],
    ("", "C: load = Z, run = M; D: load = M;"): ["none: $800, $100: C", f"f: LAST1, {REST}: D"],
    ("", "C: load = M; E: load = M, align = 8;"): ["f: $800, $100: C E", "f: __C_LOAD__ + __C_SIZE__, LAST1 - __C_LOAD__ - __C_SIZE__ filled"],
    ("", "E: load = M, align = 8;"): ["f: $800, $100: E", "f: START1, LAST1 - START1 filled"],
    ("", "B: load = M, type = bss; C: load = M, offset = 9;"): ["none: $800, $100: B", "f: LAST1, $9 + START1 - LAST1 filled",
                                                               "f: $9 + START1, SIZE1 - $9: C"],
    ("", ""): ["none: $800, $100"],
    (", fill = yes", "C: load = M;"): ["f: $800, $100 filled: C"],
    (", fill = yes", "C: load = M; B: load = M, type = bss; D: load = M;"): ["f: $800, $100 filled: C B D"],
    (", fill = yes", "C: load = M; B: load = M, type = bss, fillval = 7;"): [
        "f: $800, $100: C", f"none: LAST1, {REST}: B", "f: START2, LAST2 - START2 - __B_SIZE__ filled",
        "f: LAST2 - __B_SIZE__, __B_SIZE__ filled", "f: LAST2, START1 + SIZE1 - LAST2 filled"],
    (", fill = yes", ""): ["none: $800, $100", f"f: LAST1, {REST} filled"],
}  # fmt: skip
HEAD, RUN = "ff ff", "e0 02 e1 02"
# Pieces of areas with their addresses, what FORMATS asks for, and the bytes of the load file.
LOADED = {
    "M 800 0102": f"{HEAD} 00 08 01 08 01 02",
    "M 800 0102, M 802 03": f"{HEAD} 00 08 02 08 01 02 03",
    "M 800 , M 803 03": f"{HEAD} 00 08 ff 07 03 08 03 08 03",
    "M 800 0102, M 803 03": f"{HEAD} 00 08 01 08 01 02 03 08 03 08 03",
    "M 800 0102, N 802 03": f"{HEAD} 00 08 01 08 01 02 02 08 02 08 03",
    "M 800 01, M 900 , N a00 02": f"{HEAD} 00 08 00 08 01 00 0a 00 0a 02",
    "M 800 01, M 900 ": f"{HEAD} 00 08 00 08 01 00 09 ff 08",
    "M 800 01 runad": f"{HEAD} 00 08 00 08 01 {RUN} 34 12",
    "M 800 01, M 900  runad": f"{HEAD} 00 08 00 08 01 {RUN} 34 12",
    "M 800 01, N 900 02 initad": f"{HEAD} 00 08 00 08 01 e2 02 e3 02 78 56 00 09 00 09 02",
    "M 800 , M 803 03 gap": f"{HEAD} 03 08 03 08 03",
    "M 800 , N 900 02 initad": f"{HEAD} 00 09 00 09 02",
}


def call_of(words):
    """What a command line asks for, or the message."""
    try:
        it = read_call(words.split(), ENVIRONMENT, "/nowhere/bin/ld65")
    except Problem as problem:
        return str(problem)
    if it is None:
        return None
    inputs = [f"{one.path}/{one.group}" if one.group else one.path for one in it.inputs]
    parts = [it.config, it.output, *inputs, *(f"{key}={value}" for key, value in it.symbols.items()), *(f"u:{one}" for one in it.imports)]
    parts += [f"{key}:{value}" for key, value in (("S", it.start), ("m", it.map), ("Ln", it.labels), ("dbg", it.debug)) if value]
    return " ".join(parts + ["twice"] * it.allows_twice)


def sum_of(text):
    """A sum as bin65 has it."""
    found, why = read(words_of(text), {"A": name("A"), "N": Linear(5)})
    return str(found) if found is not None else None if why else ""


def parts_of(given):
    """The parts of the area M, in the short form above."""
    config = read_config(AREA % given, Given("a.cfg", "game"))
    names = Names("a.cfg", {}, {}, lambda _: None)
    parts = [it for it in laid_out(config, {"C": 3, "D": 2, "B": 4, "E": 0}, names).parts if it.area == "M"]
    shown = [f"{it.file or 'none'}: {it.start}, {it.size}{' filled' * it.is_filled}: {' '.join(one.name for one in it.rows)}" for it in parts]
    return [re.sub(r"__M__(\d)_([A-Z]+)__", r"\2\1", it).strip(": ") for it in shown]


def loaded(text):
    """A load file in hexadecimal."""
    wanted = Atari("start" if "runad" in text else "", (("M", "call"),) if "initad" in text else ())
    pieces = []
    for it in text.replace(" runad", "").replace(" initad", "").split(", "):
        area, address, data, *gap = it.split(" ")
        pieces.append(Piece(area, int(address, 16), bytes.fromhex(data), bool(gap)))
    return atari(pieces, wanted, {"start": 0x1234, "call": 0x5678}).hex(" ")


class Linking(rows.Rows):
    """What a link reads and makes."""

    def test_calls(self):
        before = os.getcwd()
        with tempfile.TemporaryDirectory() as top:
            os.chdir(top)
            try:
                for it in FILES:
                    os.makedirs(os.path.dirname(it) or ".", exist_ok=True)
                    open(it, "w", encoding="utf-8").close()
                with open("answers", "w", encoding="utf-8") as it:
                    it.write("-C\na.cfg\n\na.o\r\n-D\nn=5")
                self.rows(CALLS, call_of)
            finally:
                os.chdir(before)

    def test_sums(self):
        self.rows(SUMS, sum_of)

    def test_parts(self):
        self.rows(PARTS, parts_of)

    def test_names(self):
        self.rows(NAMES, lambda it: named(it, "game"))

    def test_loaded(self):
        self.rows(LOADED, loaded)
