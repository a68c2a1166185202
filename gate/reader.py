"""Reads the repository's crates: what each depends on, its mutants, and by the tokens that the toolchain prints, its
functions and its code."""
import functools
import glob
import json
import os
import re
import subprocess
from typing import NamedTuple

ROOT = os.path.dirname(os.path.dirname(os.path.realpath(__file__)))
ROW = re.compile(r'^(\d+) (\d+) (\d+) (\w+) (".*")$')
# The type or trait whose functions a block has: `impl Type`, `impl Trait<With> for Type`, `trait Type`.
IMPL = re.compile(r"impl(?:<(?P<own>.*?)>)? (?:(?P<of>[\w:]+)(?:<(?P<with>.*)>)? for )?(?P<type>[\w:]+)")



class Function(NamedTuple):
    """A function: its file, the type or trait that has it ('' if none does), its name, the path by which a check names it (of
    a method its end), its lines from the first attribute on, the line at which its body begins (None: it has none), and
    its clauses as (name, text)."""

    file: str
    owner: str
    name: str
    path: str
    first: int
    body: int
    last: int
    clauses: list


@functools.lru_cache(maxsize=None)
def kit():
    """Returns the toolchain's folder."""
    return os.path.dirname(subprocess.run(["rt", "doc"], capture_output=True, text=True, check=True).stdout.strip())


def crates(root=ROOT):
    """Returns the libraries that each crate of crates.txt depends on, in the order of that file."""
    with open(f"{root}/crates.txt", encoding="utf-8") as it:
        rows = [line.partition(":") for line in it if line.strip() and not line.startswith("#")]
    return {front.split()[0]: rest.split() for front, _, rest in rows}


def below(name, listed):
    """Returns the repository's crates on which a crate depends, also indirectly."""
    own = [it for it in listed[name] if it in listed]
    return set(own).union(*(below(it, listed) for it in own))


def sources(folder):
    """Returns the files of a crate's code."""
    return sorted(glob.glob(f"{folder}/src/**/*.rt", recursive=True))


def tokens_of(files):
    """Returns for each file its text as bytes, and its tokens as (line from 0 on, start, end, kind, text)."""
    if not files:
        return {}
    ran = subprocess.run([f"{kit()}/bin/rattle", "fmt", "--tokens", *files], capture_output=True, text=True, check=True)
    parts = re.split(r"^file \d+\n", ran.stdout, flags=re.M)[1:]
    found = {}
    for file, part in zip(files, parts):
        with open(file, "rb") as it:
            rows = filter(None, map(ROW.match, part.split("\n")))
            found[file] = it.read(), [(int(at[1]) - 1, int(at[2]), int(at[3]), at[4], json.loads(at[5])) for at in rows]
    return found


def code_of(folder):
    """Returns a crate's code as one text, without comments, strings, clauses and proofs."""
    parts = []
    for text, tokens in tokens_of(sources(folder)).values():
        end = 0
        for _, start, after, kind, _ in tokens:
            parts.append("" if end == start else " ")
            parts.append(text[start:after].decode() if kind == "Code" else " ")
            end = after
        parts.append("\n")
    return "".join(parts)


def next_of(tokens, at, *marks):
    """Returns the index of the next of these tokens of code outside of parentheses and brackets."""
    depth = 0
    while depth or not (tokens[at][3] == "Code" and tokens[at][4] in marks):
        if tokens[at][3] == "Code":
            depth += (tokens[at][4] in "([") - (tokens[at][4] in ")]")
        at += 1
    return at


def end_of_block(tokens, at):
    """Returns the index of the brace of code that closes the one at this index."""
    depth = 0
    while True:
        if tokens[at][3] == "Code":
            depth += (tokens[at][4] == "{") - (tokens[at][4] == "}")
        if not depth:
            return at
        at += 1


def clauses_of(text, tokens):
    """Yields the clauses among the tokens of a signature, as (name, text)."""
    at = 0
    while at < len(tokens):
        if tokens[at][3] == "Head" and tokens[at][4] in ("requires", "ensures"):
            names = []
            while tokens[at + 1][4] != "{":
                at += 1
                names.append(tokens[at][4])
            begin = tokens[at + 1][2]
            at = next(it for it in range(at, len(tokens)) if tokens[it][3] == "End")
            yield "".join(names).lstrip("*"), text[begin : tokens[at][1]].decode()
        at += 1


def owner_of(header):
    """Returns the type or trait that a block is about, and how a check names it: by the type, the trait, and what this is
    given."""
    found = IMPL.match(header)
    if not found:
        return re.search(r"trait (\w+)", header)[1], re.search(r"trait (\w+)", header)[1]
    own = {it.removeprefix("const ").partition(":")[0].strip() for it in (found["own"] or "").split(",")}
    given = [it for it in re.findall(r"(?<!')\b[A-Za-z_][\w:]*", found["with"] or "") if it not in own]
    words = [it.rpartition("::")[2] for it in (found["type"], found["of"] or "", *given)]
    return words[0], words[0] if words[1] == "Drop" else "".join(words)


def module_of(file):
    """Returns the path of a file's module below its crate: '' for the root."""
    path = file.rpartition("/src/")[2].removesuffix(".rt")
    return "" if path in ("lib", "main") else path.replace("/", "::")


def functions_in(file, text, tokens):
    """Yields the functions of a file."""
    lines, owner, until = text.decode().split("\n"), "", 0
    path = module = module_of(file)
    for at, (line, start, _, kind, word) in enumerate(tokens[:-1]):
        if kind != "Code":
            continue
        if word in ("impl", "trait") and at >= until and lines[line].startswith(("impl", "pub trait", "trait")):
            begin = next_of(tokens, at, "{")
            owner, path = owner_of(" ".join(text[start : tokens[begin][1]].decode().split()))
            until = end_of_block(tokens, begin)
        elif at > until:
            owner, path = "", module
        if word != "fn" or not re.fullmatch(r"\w+", tokens[at + 1][4]):
            continue
        begin = next_of(tokens, at, "{", ";")
        end = end_of_block(tokens, begin) if tokens[begin][4] == "{" else begin
        first = line
        while first > 0 and lines[first - 1].lstrip().startswith(("///", "#[")):
            first -= 1
        name, body = tokens[at + 1][4], tokens[begin][0] if end > begin else None
        clauses = list(clauses_of(text, tokens[at:begin]))
        yield Function(file, owner, name, f"{path}::{name}" if path else name, first, body, tokens[end][0], clauses)


@functools.lru_cache(maxsize=None)
def functions(folder):
    """Returns the functions of a crate."""
    return [it for file, (text, tokens) in tokens_of(sources(folder)).items() for it in functions_in(file, text, tokens)]


def edits_of(folder):
    """Returns the files of a crate's mutants."""
    return sorted(glob.glob(f"{folder}/must-fail/*.edit")) + sorted(glob.glob(f"{folder}/mutants/*.edit"))


def edited(edit, folder):
    """Returns the files of a crate that an edit changes, as they are and as it makes them; instead of these why it can't be
    applied."""
    texts, path, old = {}, None, None
    with open(edit, encoding="utf-8") as it:
        lines = it.read().split("\n")
    for line in lines:
        if line.startswith("file: "):
            path = line[len("file: ") :].strip()
        elif line.startswith("old: "):
            old = line[len("old: ") :]
        elif line.startswith("new:"):
            if not path or old is None or not os.path.isfile(f"{folder}/{path}"):
                return None, "a 'new:' line has no file or no 'old:' line before it"
            if path not in texts:
                with open(f"{folder}/{path}", encoding="utf-8") as it:
                    texts[path] = [it.read()] * 2
            was, now = texts[path]
            if now.count(old) != 1:
                return None, f"an 'old:' text is in {path} {now.count(old)} times, and not once"
            texts[path], old = [was, now.replace(old, line[len("new:") :].removeprefix(" "))], None
    return (texts, None) if any(was != now for was, now in texts.values()) else (None, "it changes nothing")
