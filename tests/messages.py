#!/usr/bin/env python3
"""Checks docs/MESSAGES.md: each example prints what the page shows; of a table's two sources the first is rejected and the second accepted; the
headings are in alphabetical order and in the contents; and each text that the code can print is on the page.

usage: messages.py BIN65. The last line is 'N passed, M failed'."""
import glob
import os
import re
import sys
import tempfile

import pages

# Crates whose texts no command prints: those of tests.
TESTS = re.compile(r"/crates/tests_\w+/")
# Functions that make texts, and the texts in them.
MAKERS = re.compile(r"^(fmt|message_text|fault_text|\w+_message|\w+_warning|assertion\w*)$")
FUNCTION = re.compile(r"^( *)(?:pub )?fn (\w+).*?^\1}$", re.M | re.S)
TEXT = re.compile(r'b?"((?:[^"\\\n]|\\.)*)"')
ROW = re.compile(r"^\| [^|]+ \| (`[^|]+`) \| (`[^|]+`) \|$", re.M)


def sources():
    """Returns the files of code that aren't tests."""
    files = glob.glob(f"{pages.ROOT}/crates/*/src/**/*.rt", recursive=True)
    return sorted(it for it in files if not TESTS.search(it))


def without_comments(text):
    return re.sub(r"^\s*//.*$", "", text, flags=re.M)


def printed():
    """Returns the texts that the code's functions make, in the form of the page, with their locations."""
    for file in sources():
        with open(file, encoding="utf-8") as it:
            code = without_comments(it.read())
        for function in FUNCTION.finditer(code):
            for text in TEXT.findall(function[0]):
                is_message = re.search(r"\b(Error|Warning)\b", text)
                if MAKERS.match(function[2]) or is_message:
                    yield plain(text), f"{os.path.relpath(file, pages.ROOT)}: {function[2]}"


def plain(text):
    """Returns a text without the form around it, with N and n for inserted values."""
    text = re.sub(r"^.*?: ?(Error|Warning): ?", "", text.replace("\\n", ""))
    text = re.sub(r"\{\w+\}", "N", text.replace("{bytes}", "n"))
    return text.strip(" :,")


def forms(heading):
    """Returns the texts that can be a heading: whole, without the name at the end, or without the surrounding text of a warning."""
    return {heading, heading.split(":")[0], heading.split(",")[0], heading.removeprefix("segment N ").removesuffix(" K")}


def missing(page):
    """Returns the texts of the code that aren't on the page."""
    texts = set().union(*(forms(it) for it, _ in pages.sections(page, "###")))
    texts |= set(re.findall(r"`([^`]+)`", page.split("## Texts that no command prints")[1]))
    for text, place in sorted(set(printed())):
        if text not in texts and not re.fullmatch(r"[N: ]*|segment|ld65", text):
            yield f"{place}: '{text}' isn't on the page"


def anchor(title):
    """Returns the name of a heading in the form that links use."""
    return re.sub(r"[^\w\- ]", "", title.lower()).replace(" ", "-")


def rows_wrong(text, tools, folder):
    """Returns the rows of a table whose first source is accepted or whose second one is rejected."""
    for refused, taken in ROW.findall(text):
        for source, wanted in ((refused, "statement not understood"), (taken, None)):
            pages.put(f"{folder}/row.s", "\n".join(re.findall(r"`([^`]+)`", source)) + "\n")
            said = pages.run("bin65 ca65 row.s", tools, folder)
            if not said.endswith(f": {wanted}\n") if wanted else said:
                yield f"{source} says {said!r}"


def check(title, text, before, tools, folder):
    """Returns what is wrong with the examples of a message."""
    os.makedirs(folder)
    shown = pages.steps(text)
    wrong = pages.carry_out(before, tools, folder) + pages.carry_out(shown, tools, folder)
    wrong += rows_wrong(text, tools, folder)
    words = re.escape(title).replace("N", r"\S+").replace(r",\ M,\ \.\.", ".*").replace("K", r"\d+").replace(r"\ n\ ", r" \d+ ")
    if not any(re.search(rf": {words}$", it[2], re.M) for it in shown if it[0] == "run"):
        wrong.append("no example gives it")
    return wrong


def main():
    page = pages.read("docs/MESSAGES.md")
    found = pages.sections(page.split("\n## Texts of your own")[0], "###")
    titles = [it for it, _ in found]
    faults = list(missing(page))
    faults += ["the headings aren't in alphabetical order"] if titles != sorted(titles, key=str.lower) else []
    listed = re.findall(r"\]\(#([^)]*)\)", page.split("## Contents\n")[1].split("\n## ")[0].partition("\n- ")[2])
    faults += ["the contents aren't the headings"] if listed != [*map(anchor, titles), "texts-of-your-own", "texts-that-no-command-prints"] else []
    passed, failed = 1 - bool(faults), len(faults)
    with tempfile.TemporaryDirectory() as top:
        tools = pages.tools_of(os.path.abspath(sys.argv[1]), f"{top}/tools")
        before = pages.steps(page.split("\n### ")[0])
        own = page.split("\n## Texts of your own")[1].split("\n## ")[0]
        for number, (title, text) in enumerate([*found, ("own texts", own)]):
            wrong = check(title, text, before, tools, f"{top}/{number}")
            if title == "own texts":
                wrong.remove("no example gives it")
            faults += [f"{title}: {it}" for it in wrong]
            passed, failed = passed + (not wrong), failed + bool(wrong)
    for it in faults:
        print(it)
    print(f"{passed} passed, {failed} failed")
    sys.exit(failed > 0 or not found)


main()
