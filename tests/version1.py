#!/usr/bin/env python3
"""Links objects and a library of version 1, as the first release wrote them, alone and together with new objects: they must always give the same
image. tests/version1 has them with their sources (`bin65 ca65 -o F.o F.s` for each, `bin65 ar65 r runtime.lib wait.o tick.o helper.o`, at
commit 76cb2b88), the script, the image, which cc65 also makes of these sources, and the map.

usage: version1.py BIN65    The last line is 'N passed, M failed'.
"""
import itertools
import os
import shutil
import subprocess
import sys
import tempfile

HERE = f"{os.path.dirname(os.path.abspath(__file__))}/version1"
OBJECTS = ("main.o", "two.o")
MEMBERS = ("wait.o", "tick.o", "helper.o")
VERSIONS = (1, 2)
# The warnings of the linker for main.s, by the version of its object: of version 2 the message has the source.
WARNED = {1: b"main.o:24: Warning: colour isn't 7\n", 2: b"main.o:main.s:24: Warning: colour isn't 7\n"}
QUIET = (0, b"", b"")


def read(path):
    with open(path, "rb") as it:
        return it.read()


def run(program, folder, *words):
    """Returns a run's status and both texts."""
    ran = subprocess.run([program, *words], cwd=folder, capture_output=True, check=False)
    return ran.returncode, ran.stdout, ran.stderr


def linked(program, folder):
    """Links the objects of a folder and its library. Returns the output, and whether the image and the map are the old ones."""
    said = run(program, folder, "ld65", "-C", "game.cfg", "-o", "out.bin", "-m", "out.map", *OBJECTS, "runtime.lib")
    return said, all(read(f"{folder}/{out}") == read(f"{HERE}/{kept}") for out, kept in (("out.bin", "game.bin"), ("out.map", "game.map")))


def anew(program, top):
    """Returns folders with the objects and members of each version: the old ones, and those that ca65 writes of the sources now."""
    folders = {version: f"{top}/{version}" for version in VERSIONS}
    for folder in folders.values():
        os.mkdir(folder)
    for name in OBJECTS:
        shutil.copy(f"{HERE}/{name}", folders[1])
    shutil.copy(f"{HERE}/runtime.lib", folders[1])
    said = [run(program, folders[1], "ar65", "x", "runtime.lib")]
    for name in ("names.inc", *(f"{it[:-1]}s" for it in OBJECTS + MEMBERS)):
        shutil.copy(f"{HERE}/{name}", folders[2])
    said += [run(program, folders[2], "ca65", f"{it[:-1]}s") for it in OBJECTS + MEMBERS]
    return folders, all(it == QUIET for it in said)


def mix(program, top, folders, versions):
    """Returns whether modules of these versions and a library of such members give the old image and map."""
    folder = f"{top}/{''.join(map(str, versions))}"
    os.mkdir(folder)
    shutil.copy(f"{HERE}/game.cfg", folder)
    for name, version in zip(OBJECTS + MEMBERS, versions):
        shutil.copy(f"{folders[version]}/{name}", folder)
        if read(f"{folder}/{name}")[:5] != b"R65o%c" % version:
            return False
    made = run(program, folder, "ar65", "r", "runtime.lib", *MEMBERS)
    return made == QUIET and linked(program, folder) == ((0, b"", WARNED[versions[0]]), True)


def main():
    program, results = os.path.abspath(sys.argv[1]), {}
    with tempfile.TemporaryDirectory() as top:
        folder = f"{top}/old"
        os.mkdir(folder)
        for name in (*OBJECTS, "runtime.lib", "game.cfg"):
            shutil.copy(f"{HERE}/{name}", folder)
        said, same = linked(program, folder)
        results["the link"], results["the image and the map"] = said == (0, b"", WARNED[1]), same
        results["the members"] = run(program, folder, "ar65", "t", "runtime.lib")[1] == b"wait.o\ntick.o\nhelper.o\n"
        folders, results["the sources anew"] = anew(program, top)
        for versions in itertools.product(VERSIONS, repeat=len(OBJECTS + MEMBERS)):
            name = ", ".join(f"{it} of {version}" for it, version in zip(OBJECTS + MEMBERS, versions))
            results[name] = mix(program, top, folders, versions)
    results["version 1"] = all(read(f"{HERE}/{name}")[:5] == b"R65o\1" for name in OBJECTS)
    for name, is_so in results.items():
        if not is_so:
            print(f"{name}: FAILED")
    passed = sum(results.values())
    print(f"{passed} passed, {len(results) - passed} failed")
    sys.exit(passed < len(results))


main()
