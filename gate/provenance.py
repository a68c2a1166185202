"""Checks that no file contains text of cc65's: six or more lines, of at least 30 bytes each, of one file of an installed cc65.
Addresses are facts and may be the same; sentences and code may not. Runs of blanks count as one."""
import os
import subprocess

# Folders of cc65: the one that its variable names, and those of packages and of its own Makefile.
PLACES = (os.environ.get("CC65_HOME", ""), "/usr/share/cc65", "/usr/local/share/cc65")
CC65 = next(filter(os.path.isdir, PLACES), PLACES[1])
BYTES, LINES = 30, 6


def lines(file):
    """Returns the lines of a file that are long enough to be compared."""
    with open(file, "rb") as it:
        text = it.read()
    return set() if b"\0" in text else {it for it in (b" ".join(line.split()) for line in text.split(b"\n")) if len(it) >= BYTES}


def index(folder):
    """Returns the files below a folder that contain a line, by the line."""
    found = {}
    for place, _, files in os.walk(folder):
        for it in files:
            for line in lines(f"{place}/{it}"):
                found.setdefault(line, set()).add(f"{place}/{it}")
    return found


def why_others(file, there):
    """Returns which file of cc65's a file was taken from, or None."""
    shared = {}
    for line in lines(file):
        for it in there.get(line, ()):
            shared[it] = shared.get(it, 0) + 1
    most = max(shared, key=shared.get, default=None)
    return f"{shared[most]} of its lines are in {most}" if most and shared[most] >= LINES else None


def files_of(root):
    """Returns the names of a repository's files, or of all files if it is no clone."""
    if not os.path.exists(f"{root}/.git"):
        return sorted(os.path.relpath(f"{place}/{it}", root) for place, _, files in os.walk(root) for it in files)
    words = ["git", "ls-files", "-z", "--cached", "--others", "--exclude-standard"]
    return list(filter(None, subprocess.run(words, cwd=root, capture_output=True, check=True).stdout.decode().split("\0")))


def looked_at(root, folder=CC65):
    """Yields one result for all files: what was compared, and why it is wrong, or None. Yields nothing if cc65 isn't
    installed."""
    if not os.path.isdir(folder):
        print(f"cc65 isn't here: no file is compared with those of {folder}")
        return
    there = index(folder)
    whys = [(it, why_others(f"{root}/{it}", there)) for it in files_of(root) if os.path.isfile(f"{root}/{it}")]
    yield "texts of cc65's", "; ".join(f"{it}: {why}" for it, why in whys if why) or None
