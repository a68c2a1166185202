#!/usr/bin/env python3
"""Evaluates programs of one or several modules as one program, and compares the images with those of separate assembly and linking.

The expected image is computed from the sources alone (reference/): for each segment one list of the statements of all modules, the address of
each statement, and the value of each expression from its tree. No object is made; only the size of a statement depends on what its own
module knows at its line. The programs are the cases of tests/cases that link sources which reference/sources.py can parse, and random ones.

usage: one_program.py BIN65 [SEED]. Both must make the same files, or both reject the program; in cases/programs.txt, whose cases have at
most one fault and of which none may be skipped, for the same reason. The last line is 'N passed, M failed'."""

import glob
import os
import subprocess
import sys
import tempfile
import threading

import cases
from reference.generated import random_program
from reference.modules import Module
from reference.program import Program, selected
from reference.scripts import Script
from reference.sources import NotRead, Refused

RANDOM_PROGRAMS = 200
# The file of cases that are made for this script.
OWN_CASES = "programs.txt"
LIBRARY = "l.lib"


class Link:
    """Sources and a script by name, the members of the library, and the inputs of each output."""

    def __init__(self, name, files, members, script, output, inputs):
        self.name, self.files, self.members = name, files, members
        self.script, self.output, self.inputs = script, output, inputs

    def is_own_case(self):
        return self.name.startswith(f"{OWN_CASES}:")

    def text(self, name):
        return self.files[name].decode("latin-1")

    def module(self, name):
        return Module(self.text(name.removesuffix(".o") + ".s"))

    def image(self):
        """Returns the files of the whole program, or why there are none."""
        try:
            script, modules = Script(self.text(self.script)), []
            for name in self.inputs:
                if name == LIBRARY:
                    modules += selected(modules, [self.module(it) for it in self.members], script)
                else:
                    modules.append(self.module(name))
            return Program(modules, script).image(self.output)
        except Refused as why:
            return str(why)

    def commands(self):
        objects = dict.fromkeys([*self.members, *self.inputs])
        for name in objects:
            if name != LIBRARY:
                yield ["ca65", name.removesuffix(".o") + ".s"]
        if self.members:
            yield ["ar65", "r", LIBRARY, *self.members]
        yield ["ld65", "-C", self.script, "-o", self.output, *self.inputs]

    def linked(self, program):
        """Returns the files that the program writes, or its message if it rejects the link."""
        with tempfile.TemporaryDirectory(prefix="one-") as folder:
            for name, file in self.files.items():
                with open(f"{folder}/{name}", "wb") as it:
                    it.write(file)
            for words in self.commands():
                before = set(os.listdir(folder))
                ran = subprocess.run([program, *words], cwd=folder, capture_output=True)
                if ran.returncode:
                    return ran.stderr.decode("latin-1").splitlines()[-1]
            return {name: read(f"{folder}/{name}") for name in set(os.listdir(folder)) - before}


def read(path):
    with open(path, "rb") as it:
        return it.read()


# ---- Programs.


def link_of(case, name):
    """Returns the link of a case that assembles sources and links them with no options but -o; None for other cases."""
    members, assembled = [], {"ca65": [], "ar65": [], "ld65": []}
    for command in case.commands:
        assembled.get(command.words[0], []).append(command.words[1:])
    made = [words[0].removesuffix(".s") + ".o" for words in assembled["ca65"] if len(words) == 1]
    for words in assembled["ar65"]:
        members += words[2:] if words[:2] == ["r", LIBRARY] else [""]
    if len(assembled["ld65"]) != 1 or case.commands[-1].words[0] != "ld65":
        return None
    words, options = assembled["ld65"][0], {"-o": "a.out"}
    while words and words[0] in ("-C", "-o", "-m"):
        option, value, *words = words
        options[option] = value
    if not words or not set(words + members) <= {*made, *[LIBRARY] * bool(members)} or "-C" not in options:
        return None
    return Link(name, case.files, members, options["-C"], options["-o"], words)


def links_of_cases():
    found = []
    for path in sorted(glob.glob(os.path.join(os.path.dirname(os.path.abspath(__file__)), "cases", "*.txt"))):
        for case in cases.Reader(path).read():
            if case.commands:
                found.append(link_of(case, f"{os.path.basename(path)}:{case.line}: {case.name}"))
    return [it for it in found if it]


def links(seed):
    yield from links_of_cases()
    for i in range(RANDOM_PROGRAMS):
        yield Link(f"random program {seed}.{i}", *random_program(f"{seed}.{i}"))


# ---- Comparing.


def shown(result):
    return result if isinstance(result, str) else {name: file.hex(" ") for name, file in result.items()}


def is_same(link, image, found):
    """Returns whether linking gives the result of the whole program. (A failed assertion has its own message.)"""
    if isinstance(image, dict) or isinstance(found, dict):
        return image == found
    return not link.is_own_case() or image == "assertion" or image in found


def main():
    program, seed = os.path.abspath(sys.argv[1]), sys.argv[2] if len(sys.argv) > 2 else "1"
    passed = failed = refused = left_out = 0
    for link in links(seed):
        try:
            image = link.image()
        except NotRead:
            left_out += 1
            if link.is_own_case():
                failed += 1
                print(f"{link.name}: isn't read")
            continue
        found = link.linked(program)
        agrees = is_same(link, image, found)
        refused += isinstance(image, str)
        passed, failed = passed + agrees, failed + (not agrees)
        if not agrees:
            print(f"{link.name}: as one program {shown(image)}, linked {shown(found)}")
    print(f"{passed + failed} programs, of which {refused} have no image; {left_out} cases aren't read")
    print(f"{passed} passed, {failed} failed")
    return failed > 0 or passed < RANDOM_PROGRAMS


def run(statuses):
    statuses.append(main())


if __name__ == "__main__":
    # Values lead through long chains of exports.
    sys.setrecursionlimit(10**6)
    threading.stack_size(2**29)
    statuses = []
    running = threading.Thread(target=run, args=[statuses])
    running.start()
    running.join()
    sys.exit(statuses != [False])
