#!/usr/bin/env python3
"""Packs a release: the program, its version, the commit and the kit from which it was built, the logs of its proofs, the pages, the
examples, man pages, the workbench, completions of command lines, and checksums of all. The same program and logs give the same archive.

usage: release.py pack PROGRAM FOLDER [CRATES]    puts bin65-VERSION.tar.gz into the folder; the logs of proofs are those in CRATES,
                                                  and each crate of the program has to have one
       release.py stage PROGRAM FOLDER            puts the installed files into the folder, without logs
       release.py version                         prints the version: it is CHANGELOG's first heading"""
import gzip
import hashlib
import io
import os
import re
import subprocess
import sys
import tarfile

ROOT = os.path.dirname(os.path.dirname(os.path.realpath(__file__)))
sys.path.insert(0, f"{ROOT}/workbench")
from work65.completing.scripts import all_scripts  # noqa: E402

PARTS = ("README.md", "CHANGELOG.md", "CONTRIBUTING.md", "docs", "example", "man",
         *(f"workbench/{it}" for it in ("work65", "pyproject.toml", "backend.py")))
LEFT_OUT = re.compile(r"(^|/)(__pycache__|out)(/|$)|\.pyc$")
MAKEFILE = """# Installs what was released, and takes it out again; no toolchain is needed.
PREFIX ?= /usr/local

install:
\tsha256sum --check --quiet SHA256SUMS
\t@sh install.sh install . '$(DESTDIR)' '$(PREFIX)'

uninstall:
\t@sh install.sh uninstall '$(DESTDIR)' '$(PREFIX)'

.PHONY: install uninstall
"""


class Refused(Exception):
    """A release that isn't packed, and why."""


def read(file):
    with open(file, "rb") as it:
        return it.read()


def said(*words):
    return subprocess.run(words, cwd=ROOT, capture_output=True, text=True, check=True).stdout.strip()


def version_of(changelog):
    """The version that a text of changes begins with."""
    heading = re.search(r"^## (.*)$", changelog, re.M)
    if not heading or not re.fullmatch(r"\d+\.\d+(\.\d+)?", heading[1]):
        raise Refused(f"CHANGELOG.md's first heading is no version: {heading[1] if heading else 'there is none'}")
    return heading[1]


def version():
    return version_of(read(f"{ROOT}/CHANGELOG.md").decode())


def is_clone():
    return os.path.exists(f"{ROOT}/.git")


def commit():
    """The commit, and whether the tree has anything that isn't in it."""
    if not is_clone():
        return "unknown\n"
    changed = said("git", "status", "--porcelain", "--untracked-files=no")
    return said("git", "rev-parse", "HEAD") + (" with changes\n" if changed else "\n")


def listed():
    """The names of the files of PARTS that belong to the repository."""
    if is_clone():
        return said("git", "ls-files", *PARTS).splitlines()
    found = [f"{folder}/{it}" for part in PARTS for folder, _, files in os.walk(f"{ROOT}/{part}") for it in files]
    found = [os.path.relpath(it, ROOT) for it in found] + [it for it in PARTS if os.path.isfile(f"{ROOT}/{it}")]
    return [it for it in found if not LEFT_OUT.search(it)]


def crates_of_the_program():
    """The names of the crates that bin65 depends on, and its own."""
    lines = [it.partition(":") for it in read(f"{ROOT}/crates.txt").decode().splitlines() if not it.startswith("#")]
    below = {name.strip(): words.split() for name, _, words in lines}
    found, left = set(), ["bin65"]
    while left:
        it = left.pop()
        if it in below and it not in found:
            found.add(it)
            left += below[it]
    return sorted(found)


def logs(crates):
    """Returns the logs of the proofs of the program's crates, by their names in the archive."""
    found = {it: f"{crates}/{it}/out/prove.log" for it in crates_of_the_program()}
    missing = [it for it, file in found.items() if not os.path.isfile(file) or not os.path.getsize(file)]
    if missing:
        raise Refused(f"there is no log of the proof of {', '.join(missing)}: `make clean` and `make release` prove all again")
    return {f"logs/{it}.log": read(file) for it, file in found.items()}


def installed(program):
    """The files that are installed, by their names in the archive."""
    files = {"bin65": read(program), "VERSION": f"{version()}\n".encode(), "COMMIT": commit().encode()}
    files |= {f"completions/{name}": text.encode() for name, text in all_scripts().items()}
    return files | {it: read(f"{ROOT}/{it}") for it in listed()}


def contents(program, crates):
    """The files of a release by their names."""
    files = installed(program) | logs(crates) | {"install.sh": read(f"{ROOT}/gate/install.sh"), "Makefile": MAKEFILE.encode()}
    files["KIT"] = f"{said('rt', 'version')}\n".encode()
    sums = "".join(f"{hashlib.sha256(files[name]).hexdigest()}  {name}\n" for name in sorted(files))
    return files | {"SHA256SUMS": sums.encode()}


def pack(files, folder):
    """The archive, whose members have the commit's time and no owner."""
    when, packed = int(said("git", "log", "-1", "--format=%ct")), io.BytesIO()
    with tarfile.open(fileobj=packed, mode="w", format=tarfile.USTAR_FORMAT) as archive:
        for name in sorted(files):
            member = tarfile.TarInfo(f"{folder}/{name}")
            member.size, member.mtime, member.mode = len(files[name]), when, 0o755 if name == "bin65" else 0o644
            archive.addfile(member, io.BytesIO(files[name]))
    return gzip.compress(packed.getvalue(), mtime=when)


def write(file, content):
    os.makedirs(os.path.dirname(file), exist_ok=True)
    with open(file, "wb") as it:
        it.write(content)


def main(what, *words):
    if what == "version":
        print(version())
    elif what == "stage":
        program, folder = words
        for name, content in installed(program).items():
            write(f"{folder}/{name}", content)
    else:
        program, folder, crates = *words, *[f"{ROOT}/crates"][: 3 - len(words)]
        files, name = contents(program, crates), f"bin65-{version()}"
        write(f"{folder}/{name}.tar.gz", pack(files, name))
        print(f"{folder}/{name}.tar.gz has the program, {sum(it.startswith('logs/') for it in files)} logs of proofs, the pages and the examples.")
        print(f"commit  {files['COMMIT'].decode().strip()}")
        print(f"sha256  {hashlib.sha256(files['bin65']).hexdigest()}  bin65")


if __name__ == "__main__":
    try:
        main(*sys.argv[1:])
    except Refused as why:
        sys.exit(f"release.py: {why}")
