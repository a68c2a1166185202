"""Reads the files and commands that a page of docs/ shows, and follows them.

A file is a block after a line with its name, as '**game.s**'; after a name with ', at its end' the block is appended to the file. Commands are
in a block 'console', each after '$ ', followed by what it prints on both streams. A command 'cat NAME' whose file doesn't exist makes the
file instead.
"""
import os
import re
import subprocess

ROOT = os.path.dirname(os.path.dirname(os.path.abspath(__file__)))
FILE = re.compile(r"^\*\*([\w./-]+)\*\*(, at its end)?\n+```\w*\n(.*?)^```$", re.M | re.S)
CONSOLE = re.compile(r"^```console\n(.*?)^```$", re.M | re.S)
COMMAND = re.compile(r"^\$ (.*)\n((?:(?!\$ ).*\n)*)", re.M)


def read(name):
    with open(f"{ROOT}/{name}", encoding="utf-8") as it:
        return it.read()


def sections(text, mark):
    """Returns the parts of a page below headings of one level, as (heading, text)."""
    parts = re.split(f"^{mark} (.*)$", text, flags=re.M)
    return list(zip(parts[1::2], parts[2::2]))


def steps(text):
    """Returns the steps of a page in order: ('file', name, is appended, bytes) and ('run', command, output)."""
    found = [(it.start(), ("file", it[1], bool(it[2]), it[3])) for it in FILE.finditer(text)]
    for block in CONSOLE.finditer(text):
        found += [(block.start() + it.start(), ("run", it[1], it[2])) for it in COMMAND.finditer(block[1])]
    return [it for _, it in sorted(found, key=lambda it: it[0])]


def put(name, text, is_added=False):
    with open(name, "a" if is_added else "w", encoding="utf-8") as it:
        it.write(text)


def run(command, tools, folder):
    """Returns the output of a command, run with the folder `tools` first on the path."""
    how = {**os.environ, "PATH": f"{tools}:{os.environ['PATH']}", "LC_ALL": "C.UTF-8"}
    ran = subprocess.run(["sh", "-c", command], cwd=folder, env=how, stdout=subprocess.PIPE, stderr=subprocess.STDOUT)
    return ran.stdout.decode(errors="replace")


def carry_out(shown, tools, folder):
    """Makes the files and runs the commands. Returns those whose output differs from the page."""
    wrong = []
    for kind, name, *rest in shown:
        if kind == "file":
            put(f"{folder}/{name}", rest[1], rest[0])
        elif name.startswith("cat ") and not os.path.exists(f"{folder}/{name[4:]}"):
            put(f"{folder}/{name[4:]}", rest[0])
        else:
            said = run(name, tools, folder)
            if said != rest[0]:
                wrong.append(f"$ {name}\n{said}    the page has\n{rest[0]}")
    return wrong


def tools_of(program, folder):
    """Returns a folder with `bin65` and `work65` as programs."""
    os.makedirs(folder)
    os.symlink(program, f"{folder}/bin65")
    put(f"{folder}/work65", f'#!/bin/sh\nexec sh "{ROOT}/workbench/work65.sh" "$@"\n')
    os.chmod(f"{folder}/work65", 0o755)
    return folder


def cc65_of(folder):
    """Returns a folder in which `bin65 ca65` is cc65's ca65, and likewise for ld65 and ar65."""
    os.makedirs(folder)
    put(f"{folder}/bin65", '#!/bin/sh\nexec "$@"\n')
    os.chmod(f"{folder}/bin65", 0o755)
    return folder
