#!/usr/bin/env python3
"""Renames what the code, the definitions and the proofs name, as a table says.

usage: rename.py TABLE [--tree FOLDER] [--back] [--check | --same OTHER_TREE]
  --back   applies the table in reverse.
  --check  only reports.
  --same   compares the definitions and clauses of the tree, renamed, with those of another tree: comments, imports and spaces aside.

A row of the table has tabs between: crates (separated by spaces, or '*'), kind, module ('-' if the name is unique), old name, new name.
Names with a module of their own are resolved by import, each row for the one crate that declares it:
  definition    of specs/: a relation, function, record or constructor; its module is as in a `use` line, without 'specs.'
  lemma         of proofs/
  type          also a trait; function, also a constant
  variant       its module is the module and name of its type: store.StoreFault
  spec-module, proof-module, source-module    old and new are the last segment of the path, the module is the path before it or '-'
The others are found by their position, in all files of the row's crates, or in the modules (separated by spaces) alone:
  method, field, label (of a clause), variable (a parameter, a local, a loop)
  word          all of these and definitions, functions and ghost members at once: for a word that means one thing in its crates
Comments and strings stay: comments that mention an old name are listed, and so are patterns of gate/ and tests/. A new name that is in
use is refused, and then nothing is changed."""
import argparse
import os
import re
import sys
from collections import defaultdict
from typing import NamedTuple

import citations
import naming

BY_IMPORT = ("definition", "lemma", "type", "function", "variant", "spec-module", "proof-module", "source-module")
BY_POSITION = ("method", "field", "label", "variable", "word")
PAGES = ("PROVED", "CLAIMS", "TRUST", "ARCHITECTURE", "DECISIONS", "THEOREM", "one-program")
PRELUDE = "/opt/rattle/rattle/std/specs/Prelude.antt"
MAKER = "docs/tables/make_instructions.py"
# Where the toolchain and the proofs have a module's or a type's name again.
GENERATED = ("specs.declared", "specs.contracts", "proofs")
GOAL_PARTS = ("function", "method", "variant", "variable", "field")


class Row(NamedTuple):
    crates: tuple
    kind: str
    module: str
    old: str
    new: str
    line: int


def read_rows(file, is_back):
    """Reads the table; in reverse, modules too are named by their new names."""
    rows = []
    with open(file, encoding="utf-8") as it:
        for number, line in enumerate(it, 1):
            if not line.strip() or line.startswith("#"):
                continue
            parts = line.rstrip("\n").split("\t")
            if len(parts) != 5 or parts[1] not in BY_IMPORT + BY_POSITION:
                sys.exit(f"{file}:{number}: a row is crates, kind, module, old, new; kinds are {', '.join(BY_IMPORT + BY_POSITION)}")
            rows.append(Row(tuple(parts[0].split()), *parts[1:], number))
    return turned(rows) if is_back else rows


def turned(rows):
    """Returns the rows in reverse."""
    segments = {(it.kind[:4], it.crates, it.module, it.old): it.new for it in rows if it.kind.endswith("-module")}
    types = {(it.crates, it.module, it.old): it.new for it in rows if it.kind == "type"}
    found = []
    for row in rows:
        kind = "spec" if row.kind in ("definition", "spec-module") else "proo" if row.kind in ("lemma", "proof-module") else "sour"
        modules = []
        for path in row.module.split(" "):
            parts = path.split(".")
            named = [segments.get((kind, row.crates, ".".join(parts[:at]) or "-", it), it) for at, it in enumerate(parts)]
            if row.kind == "variant" or (row.kind == "method" and len(parts) > 1):
                named[-1] = types.get((row.crates, ".".join(parts[:-1]), parts[-1]), types.get((row.crates, "-", parts[-1]), named[-1]))
            modules.append(".".join(named))
        found.append(row._replace(module=" ".join(modules), old=row.new, new=row.old))
    return found


def one_of(names):
    return "|".join(map(re.escape, sorted(names, key=len, reverse=True))) or "(?!)"


class Renaming:
    """A table, resolved in a tree: which paths it renames, and the files after it."""

    def __init__(self, folder, rows, is_back=False):
        self.folder, self.rows, self.is_back = folder, rows, is_back
        self.tree = naming.Tree(folder)
        self.names, self.faults, self.notes = {}, [], []
        self.functions = {name for it in self.tree.files for _, name in it.functions}
        self.parts = defaultdict(dict)
        self.labelled = defaultdict(dict)
        self.edits = defaultdict(dict)
        self.by_position = [it for it in rows if it.kind in BY_POSITION and it.kind != "word"]
        self.words = {(crate, it.old): it for it in rows if it.kind == "word" for crate in it.crates}
        for row in rows:
            if row.kind in BY_IMPORT:
                self.resolve(row)
        olds, types = {it.old for it in rows}, {it.old for it in rows if it.kind == "type"}
        self.word = re.compile(rf"(?<!\w)(?:(?:{one_of(olds)})(?![\w'])|(?:{one_of(types)})[A-Z]\w*)")

    def refuse(self, row, why):
        self.faults.append(f"row {row.line}: {row.kind} {row.old} -> {row.new}: {why}")

    def resolve(self, row):
        """Finds the one declaration that a row means, and what paths lead to it."""
        if len(row.crates) != 1 or row.crates[0] not in self.tree.crates:
            self.refuse(row, "names the one crate that declares it")
            return
        front = "" if row.module == "-" else f"{row.module}."
        if row.kind.endswith("-module") or row.kind == "variant":
            homes = [front[:-1]]
        else:
            area = {"definition": "specs", "lemma": "proofs"}.get(row.kind, "src")
            homes = [it.module for it in self.tree.files if it.crate == row.crates[0] and it.area == area and row.old in it.declared
                     and row.module in ("-", it.module)]
        if len(homes) != 1:
            self.refuse(row, f"is declared in {', '.join(homes)}: name the module" if homes else "is not declared there")
            return
        for path in self.paths(row, homes[0]):
            self.names[path] = row
        if row.kind in ("type", "variant", "function"):
            self.names[".".join(filter(None, (row.crates[0], homes[0], row.old)))] = row

    @staticmethod
    def paths(row, home):
        """Returns the paths of a name besides its own in the code."""
        crate, kind, name = row.crates[0], row.kind, row.old
        path = ".".join(filter(None, (home, name)))
        return {
            "definition": [f"{crate}.specs.{path}"], "spec-module": [f"{crate}.specs.{path}"],
            "lemma": [f"{crate}.proofs.{path}"], "proof-module": [f"{crate}.proofs.{path}"],
            "source-module": [f"{crate}.{path}", *(f"{crate}.{it}.{path}" for it in GENERATED)],
            "type": [*(f"{crate}.{it}.{path}" for it in GENERATED), f"{crate}.specs.declared.{path}.{name}"],
            "function": [f"{crate}.specs.contracts.{path}", f"{crate}.proofs.{path}", f"{crate}.proofs.{home}.+{name}".replace("..", ".")],
            "variant": [f"{crate}.specs.declared.{home}.TheVariants.{name}", f"{crate}.specs.declared.{home}.{home.rpartition('.')[2]}.{name}"],
        }[kind]

    def row_of(self, path):
        """Returns the row that renames the last segment of a path, and what it becomes. A type's folder may end in a trait's name.
        What a re-export calls by another name (`as`) has that name alone."""
        word, path = path.rpartition(".")[2], self.tree.canonical(path)
        front, _, last = path.rpartition(".")
        if word != last:
            row = self.word_row(path.split(".")[0], word)
            return row, row.new if row else word
        if path in self.names:
            row = self.names[path]
            return row, ("+" if last.startswith("+") else "") + row.new
        if row := self.word_row(path.split(".")[0], last.lstrip("+")):
            return row, last.replace(row.old, row.new)
        if ".proofs." in path or ".contracts." in path:
            for row in self.rows:
                rest = last[len(row.old):] if row.kind == "type" and last.startswith(row.old) else ""
                if rest[:1].isupper() and self.names.get(f"{front}.{row.old}") == row:
                    return row, row.new + rest
                if row.kind == "method" and row.old == last.lstrip("+") and self.is_method_of(row, front):
                    return row, last.replace(row.old, row.new)
        return None, last

    def is_method_of(self, row, front):
        """Returns whether a path is that of a type whose method a row means: by its crate, and by its module if the row names any."""
        crate, _, home = re.sub(r"\.specs\.contracts\.|\.proofs\.", "..", front, count=1).partition("..")
        is_named = row.module == "-" or any(home == it or home.startswith(f"{it}.") for it in row.module.split(" "))
        return crate in row.crates and home.rpartition(".")[2][:1].isupper() and is_named

    def renamed_path(self, dotted):
        """Returns a dotted path with each of its segments renamed."""
        parts = dotted.split(".")
        return ".".join(self.row_of(".".join(parts[: at + 1]))[1] if at else it for at, it in enumerate(parts))

    # ---- Words.

    def word_row(self, crate, word):
        return self.words.get((crate, word), self.words.get(("*", word)))

    def applies(self, row, file):
        """Whether a row that goes by position counts in a file; a method's also where its type is in use."""
        if "*" not in row.crates and file.crate not in row.crates:
            return False
        modules = row.module.split(" ")
        crates = self.tree.crates if "*" in row.crates else row.crates
        return row.module == "-" or file.source in modules or (
            row.kind == "method" and any(file.sees(self.tree, f"{crate}.{it}") for crate in crates for it in modules))

    def change(self, file, at, word, row, new):
        self.edits[file][at] = (word, new, row)
        if row.kind in GOAL_PARTS and file.area == "src":
            known = self.parts[file.crate, file.module].setdefault(row.old, row)
            if known.new != row.new:
                self.notes.append(f"{file.where(at)}: {row.old} of two rows meet in this module's goals: {known.new} was taken")

    def look_at(self, file):
        """Resolves each word of a file that is an old name."""
        for match in self.word.finditer(file.code):
            at, word = match.start(), match[0]
            path = file.path_at(self.tree, at, word)
            # (what a file imports `as` another name has that name alone)
            is_alias = path and path.rpartition(".")[2] != word
            row, new = self.row_of(path) if path and not is_alias else (None, word)
            if not row and (row := self.word_row(file.crate, word)) and self.applies(row, file):
                self.change(file, at, word, row, row.new)
            elif row:
                self.change(file, at, word, row, new)
            elif not path or file.code[at - 2: at] == "::" or path.split(".")[-2] == "Goals":
                self.look_at_position(file, at, word)

    def look_at_position(self, file, at, word):
        kinds = file.kinds_at(at, word)
        rows = [it for it in self.by_position if it.old == word and it.kind in kinds and it.kind != "label" and self.applies(it, file)]
        if file.is_short(at, word) and {it.kind for it in rows} & {"field", "variable"} and len({it.new for it in rows}) + len(rows) != 3:
            self.refuse(rows[0], f"{file.where(at)}: a field and a variable in one word: both need a row, with one new name")
        elif rows:
            self.change(file, at, word, rows[0], rows[0].new)
        elif "label" in kinds:
            self.look_at_label(file, at, word)
        elif "method" in kinds:
            for row in self.by_position:
                if (row.old, row.kind) == (word, "method") and self.tree.needs[file.crate] & {*row.crates}:
                    self.notes.append(f"{file.where(at)}: the call {word} is none of row {row.line}'s, which names other crates or modules")
        elif file.area != "src" or file.is_ghost(at):
            # (a type's methods can be in other modules than the type)
            row = self.parts[file.crate, file.source].get(word) or self.part_elsewhere(file, at, word)
            if row and row.kind in kinds | ({"function", "method", "variant"} if file.is_goal_part(at, word) else set()):
                self.change(file, at, word, row, row.new)

    def part_elsewhere(self, file, at, word):
        """Returns the row for a part of a goal of a type's method, which can be in another module than its type."""
        if file.area != "proofs" or not file.source or not file.is_goal_part(at, word) or self.tree.has_call(self.tree.needs[file.crate], word):
            return None
        found = {rows[word] for (crate, _), rows in self.parts.items() if crate == file.crate and word in rows}
        return found.pop() if len({it.new for it in found}) == 1 and found <= {it for it in found if it.kind in ("function", "method", "variant")} else None

    def look_at_label(self, file, at, word):
        """Renames a clause's label: in the contract, and in proofs where it is a clause of a function that has it."""
        function = file.function_at(at)
        rows = self.labelled[word].get(function, [None])
        near = [it for it in rows if it and self.applies(it, file)] or [it for it in rows if it and self.tree.needs[file.crate] & {*it.crates}]
        row = (near or rows)[0]
        if not row and self.labelled[word] and file.area == "proofs" and function not in self.functions:
            # (a call whose result has a name is known by that name alone)
            callable_crates = {file.crate, *self.tree.needs[file.crate], "*"}
            row = next((it for rows in self.labelled[word].values() for it in rows if callable_crates & {*it.crates}), None)
            if row:
                self.notes.append(f"{file.where(at)}: {word} became {row.new}: is it a clause of a function of row {row.line}?")
        if row and (file.area == "src" and self.applies(row, file) or file.area != "src"):
            self.change(file, at, word, row, row.new)

    def find_labels(self):
        for row in self.by_position:
            for file in self.tree.files if row.kind == "label" else ():
                if file.area == "src" and self.applies(row, file):
                    for match in re.finditer(rf"\b(?:ensures|requires)\s+({re.escape(row.old)})\s*\{{", file.code):
                        self.labelled[row.old].setdefault(file.function_at(match.start(1)), []).append(row)

    # ---- Files.

    def run(self):
        """Returns the files that change: path to (new path, new text)."""
        self.find_labels()
        for area in ("src", "specs", "proofs", "edits"):
            for file in self.tree.files:
                if file.area == area:
                    self.look_at(file)
        for row in self.rows:
            self.check_new_name(row)
        found = {}
        for file in self.tree.files:
            path, text = self.path_after(file), file.replaced(self.edits[file])
            if file.area == "edits":
                text = re.sub(r"(?m)^file: src/(.*)\.rt$", lambda it: f"file: src/{self.source_after(file.crate, it[1])}.rt", text)
            if (path, text) != (file.path, file.text):
                found[file.path] = (path, text)
        for path, text in citations.pages_after(self, PAGES, MAKER):
            found[path] = (path, text)
        return found

    def source_after(self, crate, path):
        return self.renamed_path(f"{crate}.{path.replace('/', '.')}").split(".", 1)[1].replace(".", "/")

    def path_after(self, file):
        front, end = f"crates/{file.crate}/", os.path.splitext(file.path)[1]
        if file.area == "edits":
            return file.path
        inner = file.path[len(front): -len(end)]
        if file.area == "src":
            return f"{front}src/{self.source_after(file.crate, inner[4:])}{end}"
        area, path = inner.split("/", 1)
        path = self.renamed_path(f"{file.crate}.{area}.{path.replace('/', '.')}").split(".", 2)[2]
        return f"{front}{area}/{path.replace('.', '/')}{end}"

    def check_new_name(self, row):
        """Refuses a new name that the crate, the Prelude or a changed file already has, unless a row takes it away.
        In reverse that is no fault: what had several meanings before has them again."""
        touched = [file for file, edits in self.edits.items() if any(it[2] == row for it in edits.values())]
        if not touched and not row.kind.endswith("-module"):
            self.refuse(row, "nothing has this name")
        if self.is_back:
            return
        if row.kind.endswith("-module"):
            self.check_new_module(row)
            return
        crates = {it.crate for it in touched} if row.kind == "word" else {*row.crates} if row.kind in BY_IMPORT else set()
        scope = [it for it in self.tree.files if it.area != "edits" and (it in touched or it.crate in crates
                 or (row.kind in BY_POSITION and row.kind != "word" and self.applies(row, it)))]
        for file in self.tree.files if row.kind == "word" and "*" not in row.crates else ():
            if file.crate not in row.crates and any(it.split(".")[0] in row.crates and it.endswith(f".{row.old}") for it in file.imported(self.tree)):
                self.refuse(row, f"{file.path} imports it: name its crate, too")
                return
        for file in scope:
            for at in file.uses_of(row.new, row.kind == "label"):
                if at not in self.edits[file]:
                    self.refuse(row, f"{file.where(at)} has {file.code[at: at + len(row.new)]} already")
                    return
        if row.kind not in ("variable", "field", "label") and (at := citations.prelude_line(PRELUDE, row.new)):
            self.refuse(row, f"{PRELUDE}:{at} has it")

    def check_new_module(self, row):
        """Refuses a module's new name that another module beside it has, or that the module above declares or imports."""
        module, area = "" if row.module == "-" else row.module, {"spec": "specs", "proo": "proofs", "sour": "src"}[row.kind[:4]]
        for file in self.tree.files:
            if file.crate == row.crates[0] and file.area == area:
                beside = file.module.rpartition(".")[0] == module and file.module.rpartition(".")[2].lower() == row.new.lower()
                if beside or (file.module == module and row.new.lower() in {it.lower() for it in (*file.declared, *file.bindings)}):
                    self.refuse(row, f"{file.path} is or has {row.new}")

    def review(self):
        """Returns places to check by hand, which aren't changed: comments, and patterns of the gate and the tests."""
        lines, olds = list(self.notes), self.word
        for file in self.tree.files:
            names = {it[0] for it in self.edits[file].values()} | {it.old for it in self.rows if file.crate in it.crates}
            lines += [f"{file.where(at)}: comment: {line.strip()}" for at, line in file.comments() if names & set(olds.findall(line))]
        for row in self.rows:
            for file in self.tree.files if row.kind == "variable" else ():
                if file.area == "proofs" and file.crate in row.crates:
                    made = re.finditer(rf"(?<!\w)the_{re.escape(row.old)}(?!\w)", file.code)
                    lines += [f"{file.where(it.start())}: {it[0]}: is it made of the variable's name?" for it in made]
        return lines + citations.patterns(self.folder, olds)


def report_same(renaming, found, other):
    """Prints what differs between the renamed tree and another one; returns how many files do."""
    count = faults = 0
    paths = {}
    for file in renaming.tree.files:
        if file.area in ("specs", "src"):
            path, text = found.get(file.path, (file.path, file.text))
            paths[path] = citations.statements(path, text)
    there = {it.path: citations.statements(it.path, it.text) for it in naming.Tree(other).files if it.area in ("specs", "src")}
    for path in sorted({*paths, *there}):
        count += 1
        mine, theirs = paths.get(path, []), there.get(path, [])
        if mine != theirs:
            faults += 1
            at = next((at for at, (a, b) in enumerate(zip(mine, theirs)) if a != b), min(len(mine), len(theirs)))
            print(f"{path}: renamed: {mine[at:at + 1]}\n{' ' * len(path)}    other: {theirs[at:at + 1]}")
    print(f"{count - faults} files state the same, {faults} differ")
    return faults


def write(folder, found):
    for path in found:
        os.remove(f"{folder}/{path}")
    for path, text in found.values():
        os.makedirs(os.path.dirname(f"{folder}/{path}"), exist_ok=True)
        with open(f"{folder}/{path}", "w", encoding="utf-8", newline="") as it:
            it.write(text)
    for path, (new, _) in found.items():
        old = os.path.dirname(f"{folder}/{path}")
        if path != new and os.path.isdir(old) and not os.listdir(old):
            os.removedirs(old)


def main():
    usage = argparse.ArgumentParser(description=__doc__, formatter_class=argparse.RawDescriptionHelpFormatter)
    usage.add_argument("table")
    usage.add_argument("--tree", default=os.path.dirname(os.path.dirname(os.path.realpath(__file__))))
    usage.add_argument("--back", action="store_true")
    usage.add_argument("--check", action="store_true")
    usage.add_argument("--same", metavar="OTHER_TREE")
    args = usage.parse_args()
    renaming = Renaming(args.tree, read_rows(args.table, args.back), args.back)
    found = renaming.run()
    for fault in renaming.faults:
        print(fault)
    if renaming.faults:
        print(f"{len(renaming.faults)} faults: nothing was changed")
        return 1
    if args.same:
        return 1 if report_same(renaming, found, args.same) else 0
    print(*renaming.review(), sep="\n")
    if not args.check:
        write(args.tree, found)
    words = sum(len(it) for it in renaming.edits.values())
    print(f"{len(renaming.rows)} rows: {words} words, {len(found)} files{' would change' if args.check else ''}")
    return 0


if __name__ == "__main__":
    sys.exit(main())
