"""Shared by translating.py and translating_cc65.py: objects, their images by both linkers, and the
run of a script's parts."""
import os
import shutil
import subprocess
import sys
import tempfile

import pages
import results
from made_objects import made_object

sys.path.insert(0, f"{pages.ROOT}/workbench")
sys.dont_write_bytecode = True
from work65.problem import Problem  # noqa: E402
from work65.translating import cc65_objects, translation  # noqa: E402

TOOLS = ("ca65", "ld65", "ar65", "od65")
LIBRARIES = "/usr/share/cc65/lib"
WORK65 = f"{pages.ROOT}/workbench/work65.sh"
SCRIPT = """MEMORY { ZP: start = $10, size = $80; M: start = $8000, size = $7000; }
SEGMENTS {
    ZEROPAGE: load = ZP, type = zp, optional = yes;
    CODE: load = M;
    RODATA: load = M, optional = yes;
    DATA: load = M, optional = yes;
    NULL: load = M, optional = yes;
    BSS: load = M, type = bss, optional = yes;
}
"""
# What random expressions are made of: cc65's codes. A divisor is never 0, and a shift is by 0 to 63.
OPERATORS = (*range(0x01, 0x16),)
PREFIXES = (0x41, 0x42, 0x43, 0x44, *range(0x48, 0x51))
DIVISIONS, SHIFTS, OR, AND, SHIFT_RIGHT, DWORD = (0x04, 0x05), (0x09, 0x0A), 0x06, 0x08, 0x0A, 0x4F
NUMBERS = (0, 1, 2, 3, 5, 7, 8, 15, 16, 127, 128, 255, 256, 0x8000, 0xFFFF, 0x10000, 0x12345678,
           0x7FFFFFFF, -1, -2, -128, -256, -0x80000000)


class Tries:
    def __init__(self, program, top, is_all):
        self.program, self.top, self.checks, self.is_all = program, top, {}, is_all
        self.has_cc65 = all(map(shutil.which, TOOLS))
        pages.put(f"{top}/m.cfg", SCRIPT)

    def check(self, name, is_so, said=""):
        self.checks[name] = bool(is_so)
        if not is_so:
            print(f"{name}: FAILED {said}")

    def ran(self, *words):
        return subprocess.run(words, cwd=self.top, capture_output=True, check=False)

    def work65(self, *words, **more):
        how = {**os.environ, "BIN65": self.program, "TMPDIR": f"{self.top}/temporary",
               "XDG_CACHE_HOME": f"{self.top}/cache", **more}
        return subprocess.run(["/bin/sh", WORK65, *words], cwd=self.top, capture_output=True,
                              text=True, env=how, check=False)

    def by_ld65(self, objects):
        """The image of cc65's linker, None if it refuses the objects."""
        for at, it in enumerate(objects):
            write(f"{self.top}/{at}.o", it)
        ran = self.ran("ld65", "-C", "m.cfg", "-o", "cc65.bin",
                       *(f"{at}.o" for at in range(len(objects))))
        return None if ran.returncode else read(f"{self.top}/cc65.bin")

    def by_bin65(self, objects):
        """The image of bin65's linker for the translated objects, or the message (a text) if it or
        the translation refuses them."""
        try:
            found = [translated(it, f"{at}.o") for at, it in enumerate(objects)]
        except Problem as problem:
            return str(problem)
        for at, it in enumerate(found):
            write(f"{self.top}/{at}.r65", it)
        ran = self.ran(self.program, "ld65", "-C", "m.cfg", "-o", "bin65.bin",
                       *(f"{at}.r65" for at in range(len(found))))
        return ran.stderr.decode() if ran.returncode else read(f"{self.top}/bin65.bin")


def translated(data, name="m.o"):
    """The translation of an object's bytes."""
    return translation.translated(cc65_objects.read_object(data, name))


def write(name, data):
    with open(name, "wb") as file:
        file.write(data)


def read(name):
    with open(name, "rb") as file:
        return file.read()


def random_expression(chance, depth):
    """An expression of four imports (two addresses and two numbers) and three sections."""
    if depth == 0 or chance.random() < 0.15:
        section = ("section", chance.randrange(3))
        return chance.choice((chance.choice(NUMBERS), chance.randrange(-300, 300),
                              ("import", chance.randrange(4)), section,
                              (0x01, section, chance.randrange(-20, 400))))
    if chance.random() < 0.3:
        return (chance.choice(PREFIXES), random_expression(chance, depth - 1))
    code, left, right = chance.choice(OPERATORS), random_expression(chance,
                                                                    depth - 1), random_expression(chance, depth - 1)
    if code in DIVISIONS:
        right = (OR, (AND, right, 0x7FF), 1)
    if code in SHIFTS:
        right = (AND, right, 63)
    return (code, left, right)


def provider():
    """The object that exports the four names: two addresses and two numbers."""
    exports = (("first", (0x01, ("section", 0), 5), ()), ("second", ("section", 1), ()),
               ("third", 0x1234, ()), ("fourth", -2, ()))
    return made_object([("CODE", 1, [b"0123456789"]), ("BSS", 4, [("fill", 7)]),
                        ("ZEROPAGE", 1, [])], (), exports)


def user(fragments, assertions=()):
    """An object that has these fragments in CODE."""
    sections = [("CODE", 1, fragments), ("RODATA", 16, [b"abc", ("fill", 5)]),
                ("ZEROPAGE", 2, [("fill", 3)])]
    return made_object(sections, ["first", "second", "third", "fourth"], (), assertions)


def run_parts(parts):
    """Runs the parts of a script in a temporary folder, reports their checks, and exits."""
    with tempfile.TemporaryDirectory() as top:
        tries = Tries(os.path.abspath(sys.argv[1]), top, sys.argv[2:] == ["all"])
        os.makedirs(f"{top}/temporary")
        os.environ["XDG_CACHE_HOME"] = f"{top}/cache"
        for part in parts:
            begun = results.processor_seconds()
            part(tries)
            print(f"{part.__name__}: {results.processor_seconds() - begun:.1f} s")
        tries.check("nothing is left", not os.listdir(f"{top}/temporary"))
        sys.exit(results.report(tries.checks))
