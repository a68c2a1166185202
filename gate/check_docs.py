"""Checks the pages for those who verify or maintain bin65: calls, clauses, modules of definitions, names and files that they
cite exist.

A row of CLAIMS has a claim, its calls, their clauses, and the modules of specs/ that define the clauses' terms, under a
heading with the crate's name. A clause without a name is cited by a text that it contains, in parentheses; 'law' cites all
clauses of a law; 'same' repeats the calls of the row before."""
import functools
import glob
import os
import re

import reader

PAGES = ("PROVED", "CLAIMS", "TRUST", "ARCHITECTURE", "DECISIONS", "THEOREM", "one-program")

MODULE = re.compile(r"(?:(\w+65) )?`((?:Internal/)?[A-Z]\w*)`")
CITED = re.compile(r"\b(\w+65) ((?:`(?:Internal/)?[A-Z]\w*`(?:, | and )?)+)")
PATH = re.compile(r"(?:crates(?!/NAME)|tests|gate|example|docs|bench|man|\w+65)(?:/[\w.-]+)+")
TICKED = re.compile(r"`([^`]+)`")
ROW = re.compile(r"^\| (.*) \|$", re.M)
# A name of the code in a page: it has an underscore or an inner capital, so it is no word of the language.
NAME = re.compile(r"(?!__)[A-Za-z]\w*(?:::\w+)*")
CODE = ("crates/*/src/**/*.rt", "crates/*/specs/**/*.antt", "crates/*/proofs/**/*.antt", "gate/*.py", "tests/*.py")


def read(file):
    with open(file, encoding="utf-8") as it:
        return it.read()


def without_code(text):
    return re.sub(r"^```.*?^```$", "", text, flags=re.M | re.S)


@functools.lru_cache(maxsize=None)
def public_names(root, name):
    """Returns the names that a library makes public."""
    face = f"{root}/crates/{name}/src/lib.rt"
    items = re.findall(r"^pub (?:use|mod) [^;]*;", read(face) if os.path.exists(face) else "", re.M)
    return set(re.findall(r"\w+", " ".join(items)))


def calls(root, crate, name):
    """Returns the functions to which a cited call refers. Laws are cited without their module."""
    front, _, last = name.rpartition("::")
    found = [it for it in reader.functions(f"{root}/crates/{crate}") if it.name == last]
    laws = [it for it in found if not front and it.file.endswith("/laws.rt")]
    if not laws and (front or last) not in public_names(root, crate):
        return []
    return [it for it in laws or found if it.owner == front or (not it.owner and re.search(rf"/{front}[/.]", it.file))]


def module_file(root, crate, module):
    return f"{root}/crates/{crate}/specs/{module}.antt"


def rows(text):
    """Yields the rows of the tables of claims, as (crate, cells)."""
    for part in re.split(r"^### ", text, flags=re.M)[1:]:
        crate, before = re.match(r"\w+", part)[0], ""
        for line in ROW.findall(part)[1:]:
            if len(cells := line.split(" | ")) == 4:
                claim, before, *rest = cells if cells[1] != "same" else [cells[0], before, *cells[2:]]
                yield crate, [claim, before, *rest]


def stated(found, named):
    """Yields the clauses that a row cites, as (clause, call), for the calls that exist."""
    for call, where in found.items():
        for function in where:
            if "law" in TICKED.sub("", named) and function.file.endswith("/laws.rt"):
                yield "law", call
    for is_text, name in re.findall(r"(\()?`([^`]+)`", named):
        word = re.compile(rf"(?<!\w){re.escape(name)}(?!\w)")
        for call, where in found.items():
            for label, text in (it for function in where for it in function.clauses):
                if not label and word.search(text) if is_text else label == name:
                    yield name, call


def why_row(root, crate, cells):
    """Returns why a row is wrong, or None."""
    _, cited, named, modules = cells
    found = {it: calls(root, crate, it) for it in TICKED.findall(cited)}
    if lost := [it for it, where in found.items() if not where] or (["none is named"] if not found else []):
        return f"no such public call: {lost[0]}"
    there = list(stated(found, named))
    if lost := sorted({*TICKED.findall(named)} - {clause for clause, _ in there}):
        return f"no call of the row has the clause {lost[0]}"
    if idle := [it for it in found if it not in {call for _, call in there}]:
        return f"no clause of the row is one of {idle[0]}"
    named = [(other or crate, it) for other, it in MODULE.findall(modules)]
    lost = [it for it in named if not os.path.exists(module_file(root, *it))]
    return f"no such module: {' '.join(lost[0])}" if lost else None


def why_public(root, text):
    """Yields the types and calls in the table of crates that aren't public."""
    for cells in (line.split(" | ") for line in ROW.findall(text)):
        if len(cells) == 4 and re.fullmatch(r"\w+65", cells[0]):
            public = public_names(root, cells[0])
            yield from (f"{cells[0]} has no public {it}" for it in TICKED.findall(cells[2]) if it not in public)


def why_cited(root, text):
    """Yields the modules, paths, steps and counts of a page that are wrong."""
    for crate, modules in CITED.findall(text):
        for module in TICKED.findall(modules):
            if not os.path.exists(module_file(root, crate, module)):
                yield f"no such module: {crate} {module}"
    for path in TICKED.findall(text):
        if PATH.fullmatch(path) and not os.path.exists(f"{root}/{path}") and not os.path.exists(f"{root}/crates/{path}"):
            yield f"no such file: {path}"
    for name, file in re.findall(r"^\|.* `(\w+)` \| `([\w/]+\.rt)` \|", text, re.M):
        if not re.search(rf"\bfn {name}\b", read(f"{root}/crates/{file}") if os.path.exists(f"{root}/crates/{file}") else ""):
            yield f"{file} has no function {name}"
    for count, folder in re.findall(r"(\d+) in `(must-fail|mutants)/`", text):
        if int(count) != (there := len(glob.glob(f"{root}/crates/*/{folder}/*.edit"))):
            yield f"{folder}/ has {there} edits, not {count}"


@functools.lru_cache(maxsize=None)
def words_of_code(root):
    """Returns all words of the code, its definitions and its proofs, and the names of mutants."""
    files = [file for pattern in CODE for file in glob.glob(f"{root}/{pattern}", recursive=True)]
    mutants = (os.path.basename(it).removesuffix(".edit") for it in glob.glob(f"{root}/crates/*/*/*.edit"))
    return frozenset(mutants).union(*(re.findall(r"\w+", read(it)) for it in files))


def why_named(words, text):
    """Yields the names in a page that occur nowhere in the code."""
    for name in sorted(set(filter(NAME.fullmatch, TICKED.findall(text)))):
        if lost := [it for it in name.split("::") if re.search(r"_|[a-z][A-Z]", it) and it not in words]:
            yield f"no such name: {lost[0]}"


def why_page(root, page):
    """Returns why a page is wrong, or None."""
    text = without_code(read(f"{root}/docs/{page}.md"))
    return "; ".join([*why_named(words_of_code(root), text), *why_cited(root, text), *why_public(root, text)]) or None


def looked_at(root):
    """Yields each row of CLAIMS and each page, with the reason why it is wrong, or None."""
    for crate, cells in rows(without_code(read(f"{root}/docs/CLAIMS.md"))):
        yield f"CLAIMS, {crate}: {cells[0]}", why_row(root, crate, cells)
    yield from ((page, why_page(root, page)) for page in PAGES)
