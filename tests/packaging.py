#!/usr/bin/env python3
"""Installs work65 alone, as `pipx install ./workbench` does: by pip, without a network and without any other package, in a new
environment, from the files in a release. The tree is removed before the installed command runs.

usage: packaging.py BIN65. The last line is 'N passed, M failed'."""
import os
import re
import subprocess
import sys
import tempfile
import zipfile

import pages
import results

VERSION = re.search(r"^## (\S+)$", pages.read("CHANGELOG.md"), re.M)[1]
SOURCE, SCRIPT = "start: lda #1\n", "MEMORY { M: start = $8000, size = $10; } SEGMENTS { CODE: load = M, type = ro; }\n"
# A line of a listing: the address, the bytes, the number and the text.
LISTED = "8000  A9 01                         1  start: lda #1"
# Wheels are looked for nowhere, and what asks for a network all the same meets a closed port.
OFFLINE = {"PIP_NO_INDEX": "1", "PIP_CONFIG_FILE": os.devnull, "PIP_DISABLE_PIP_VERSION_CHECK": "1", "PIP_NO_CACHE_DIR": "1",
           "http_proxy": "http://127.0.0.1:9", "https_proxy": "http://127.0.0.1:9"}


def run(folder, *words, **more):
    plain = {name: it for name, it in os.environ.items() if not name.startswith(("PYTHON", "PIP_"))}
    return subprocess.run(words, cwd=folder, env={**plain, **OFFLINE, **more}, capture_output=True, text=True, check=False)


def files(folder):
    """The files below a folder, by their names in it."""
    return {os.path.relpath(f"{place}/{it}", folder) for place, _, names in os.walk(folder) for it in names}


def modules():
    """The modules that belong to the repository, by their names in the wheel."""
    listed = subprocess.run(["git", "ls-files", "workbench/work65/*.py"], cwd=pages.ROOT, capture_output=True, text=True, check=True).stdout.split()
    return {it.removeprefix("workbench/") for it in listed}


def environment(top):
    """Makes an environment with a pip of its own, where this Python can, and returns its folder of programs."""
    ran = run(top, sys.executable, "-m", "venv", f"{top}/env")
    return f"{top}/env/bin" if ran.returncode == 0 and os.path.exists(f"{top}/env/bin/pip") else None


def built(checks, program, top):
    """Stages a release, and builds the wheel of it; returns the staged tree."""
    tree = f"{top}/tree"
    checks["a release is staged"] = run(top, sys.executable, f"{pages.ROOT}/gate/release.py", "stage", program, tree).returncode == 0
    before, code = files(tree), "import sys; sys.dont_write_bytecode = True; import backend; print(backend.build_wheel(sys.argv[1]))"
    wheel = f"work65-{VERSION}-py3-none-any.whl"
    checks["the wheel"] = run(f"{tree}/workbench", sys.executable, "-c", code, top).stdout == f"{wheel}\n"
    with zipfile.ZipFile(f"{top}/{wheel}") as it:
        held = {name: it.read(name) for name in it.namelist()}
    own = {name: f"workbench/{name}" for name in modules()} | {"work65/CHANGELOG.md": "CHANGELOG.md", "work65/MESSAGES.md": "docs/MESSAGES.md"}
    checks["the wheel has the package and its pages"] = {name for name in held if ".dist-info/" not in name} == {*own}
    checks["each file is as it is in the tree"] = all(held.get(name) == pages.read(file).encode() for name, file in own.items())
    checks["nothing is left in the tree"] = {it for it in files(tree) - before if "__pycache__" not in it} == set()
    return tree


def installed(checks, program, tree, top):
    """Installs from the staged tree, takes the tree away, and runs what was installed."""
    programs = environment(top)
    if programs is None:
        print("this Python makes no environment with pip: nothing is installed by it")
        return
    ran = run(top, f"{programs}/pip", "install", f"{tree}/workbench")
    checks["installed as pipx does"] = ran.returncode == 0 and f"Successfully installed work65-{VERSION}" in ran.stdout
    if ran.returncode:
        print(ran.stdout, ran.stderr)
    os.rename(tree, f"{top}/away")
    os.makedirs(f"{top}/here")
    pages.put(f"{top}/here/a.s", SOURCE)
    pages.put(f"{top}/here/a.cfg", SCRIPT)
    runs(checks, f"{programs}/work65", program, f"{top}/here")


def runs(checks, work65, program, here):
    """Runs the installed command: the version, a command that needs nothing, one that reads a page, one that runs bin65."""
    checks["the version"] = run(here, work65, "--version").stdout == f"work65 {VERSION}\n"
    pages.put(f"{here}/old.s", " lda #1\n .struct P\n .endstruct\n")
    ran = run(here, work65, "check", "old.s")
    checks["check"] = ran.returncode == 1 and ran.stdout.startswith("old.s:2: .struct: ")
    ran = run(here, work65, "explain", "--", "sh", "-c", "echo 'a.s:1: Error: value out of range' >&2")
    checks["explain runs a command"] = ran.returncode == 0
    ran = run(here, "sh", "-c", f"echo 'a.s:1: Error: bad character' | {work65} explain")
    paragraph = re.search(r"^### bad character\n\n(?:\S+ )(.*)", pages.read("docs/MESSAGES.md"), re.M)[1].split()[:6]
    checks["explain has the page"] = " ".join(paragraph) in ran.stdout
    ran = run(here, work65, "list", "-C", "a.cfg", "a.s", BIN65=program)
    checks["list"] = ran.returncode == 0 and LISTED in ran.stdout.splitlines()
    checks["no bin65"] = run(here, work65, "list", "-C", "a.cfg", "a.s", BIN65=f"{here}/none").returncode == 1


def main():
    checks, program = {}, os.path.abspath(sys.argv[1])
    with tempfile.TemporaryDirectory() as top:
        installed(checks, program, built(checks, program, top), top)
    ran = run(f"{pages.ROOT}/workbench", sys.executable, "-B", "-m", "work65", "--version")
    checks["python3 -m work65"] = ran.stdout == f"work65 {VERSION}\n"
    sys.exit(results.report(checks))


main()
