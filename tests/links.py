#!/usr/bin/env python3
"""Checks that each link of a page leads to a file of the repository and, where it names one, to a heading; that the picture of the crates is
what its script draws; and that no file contains the marks of an unfinished merge.

usage: links.py. The last line is 'N passed, M failed'."""
import glob
import os
import re
import subprocess
import sys

import pages
import results

LINK = re.compile(r"\]\(([^)\s]+)\)")


def read(file):
    with open(file, encoding="utf-8") as it:
        return it.read()


def anchors(file):
    """Returns the names of a page's headings, in the form that links use."""
    text = re.sub(r"^```.*?^```$", "", read(file), flags=re.M | re.S)
    for heading in re.findall(r"^#+ (.*)$", text, re.M):
        yield re.sub(r"[^\w\- ]", "", heading.lower()).replace(" ", "-")


def wrong(root, page):
    """Returns the links of a page in a folder that lead nowhere."""
    text = re.sub(r"^```.*?^```$", "", read(f"{root}/{page}"), flags=re.M | re.S)
    for link in LINK.findall(re.sub(r"`[^`\n]*`", "", text)):
        file, _, anchor = link.partition("#")
        target = os.path.normpath(os.path.join(os.path.dirname(page), file)) if file else page
        if "://" in link:
            continue
        if not os.path.exists(f"{root}/{target}"):
            yield f"{page}: {link}: no such file"
        elif anchor and not any(re.fullmatch(f"{re.escape(it)}(-\\d+)?", anchor) for it in anchors(f"{root}/{target}")):
            yield f"{page}: {link}: no such heading"


def pages_of(root):
    found = [it for place in ("", "docs/", "tests/", "example/*/") for it in glob.glob(f"{root}/{place}*.md")]
    return sorted(os.path.relpath(it, root) for it in found)


def all_wrong(root):
    """Returns the links of all pages that lead nowhere."""
    return [it for page in pages_of(root) for it in wrong(root, page)]


def main():
    faults = {page: list(wrong(pages.ROOT, page)) for page in pages_of(pages.ROOT)}
    drawn = subprocess.run([sys.executable, f"{pages.ROOT}/docs/tables/make_picture.py", "--print"], capture_output=True, text=True, check=False)
    if drawn.stdout != pages.read("docs/screens/crates.svg"):
        faults["docs/ARCHITECTURE.md"].append("docs/screens/crates.svg isn't what docs/tables/make_picture.py draws from crates.txt")
    ran = subprocess.run(["git", "grep", "-nIE", "^(<{7}|>{7}) "], cwd=pages.ROOT, capture_output=True, text=True, check=False)
    faults["merges"] = [f"a merge was left undone: {it}" for it in ran.stdout.splitlines()]
    checks = {name: True for name, found in faults.items() if not found}
    sys.exit(results.report({**checks, **{it: False for found in faults.values() for it in found}}))


if __name__ == "__main__":
    main()
