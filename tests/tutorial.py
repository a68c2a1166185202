#!/usr/bin/env python3
"""Follows README.md, docs/TUTORIAL.md and docs/THEOREM.md, each in an empty folder, and docs/DEBUGGING.md in the folder of TUTORIAL: each command
must print what the page shows. If cc65 is installed, its tools follow the page too, and must make the same images; if its sim65 is, it
runs the images that print.

usage: tutorial.py BIN65. The last line is 'N passed, M failed'."""
import glob
import os
import shutil
import sys
import tempfile

import pages

IMAGES = ("*.bin", "*.nes")


def images(folder):
    """Returns the images in a folder, by name."""
    found = {}
    for file in (it for pattern in IMAGES for it in glob.glob(f"{folder}/{pattern}")):
        with open(file, "rb") as it:
            found[os.path.basename(file)] = it.read()
    return found


def is_simulated(step):
    """Returns whether a step runs an image in cc65's simulator."""
    return step[0] == "run" and step[1].startswith("sim65 ")


def follow(page, program, before=()):
    """Follows a page after the earlier ones, and yields each part that shows something, with what is wrong in it."""
    with tempfile.TemporaryDirectory() as top:
        ours, theirs = f"{top}/ours", f"{top}/theirs"
        tools = pages.tools_of(program, f"{top}/tools")
        cc65 = pages.cc65_of(f"{top}/cc65") if all(map(shutil.which, ("ca65", "ld65", "ar65"))) else None
        for folder in (ours, theirs):
            os.makedirs(folder)
            shutil.copy(f"{pages.ROOT}/example/labels.sh", folder)
        for it in before:
            pages.carry_out(pages.steps(pages.read(it)), tools, ours)
            if cc65:
                pages.carry_out(pages.steps(pages.read(it)), cc65, theirs)
        for title, text in pages.sections(pages.read(page), "##"):
            shown = [it for it in pages.steps(text) if shutil.which("sim65") or not is_simulated(it)]
            if len(shown) < len(pages.steps(text)):
                print(f"sim65 isn't here: what it would run in '{title}' isn't run")
            wrong = pages.carry_out(shown, tools, ours)
            if cc65:
                pages.carry_out(shown, cc65, theirs)
                if images(ours) != images(theirs):
                    wrong.append("the images aren't those that cc65 makes")
            if shown:
                yield title, wrong
        if not images(ours):
            yield page, ["no image was made"]


def main():
    passed = failed = 0
    for page, parts, before in (("README.md", 1, ()), ("docs/TUTORIAL.md", 8, ()), ("docs/DEBUGGING.md", 4, ("docs/TUTORIAL.md",)),
                                ("docs/THEOREM.md", 2, ())):
        found = list(follow(page, os.path.abspath(sys.argv[1]), before))
        for title, wrong in found:
            for it in wrong:
                print(f"{page}, {title}: {it}")
            passed, failed = passed + (not wrong), failed + bool(wrong)
        failed += len(found) < parts
    print(f"{passed} passed, {failed} failed")
    sys.exit(failed > 0)


main()
