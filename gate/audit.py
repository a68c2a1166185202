#!/usr/bin/env python3
"""Writes into one file the definitions that the clauses `done`, `fits`, `failed` and `one_program` of run, run_line and both functions with
streams reach, and no others, without imports. A module comes after those that it uses, and the four contracts come last, so each name is
defined above its uses, except for definitions that use each other. A type of the code is shown as it is declared or, if it has one, as its model.
usage: audit.py [FILE [ROOT]]    (default: audit-out/statement.txt). The last lines count what was written, without comments.
Names are resolved token by token, by the imports of their file; std's aren't followed. One that is imported, used and not defined fails."""
import collections
import functools
import itertools
import os
import re
import sys

ROOT = os.path.dirname(os.path.dirname(os.path.realpath(__file__)))
RUNNING = "crates/tools65/src/running.rt"
HEAD = re.compile(r"((?:abbrev |unfoldable |pub |record |data )*)([^\s:({]+)(?= :| [({]|$)")
WORD = re.compile(r"[^\W\d][\w-]*(?:\.[^\W\d][\w-]*)*|[^\w\s(){},;:.\[\]]+")
USE = re.compile(r"^ *(?:pub |ghost )*use Rattle\.(\w+)\.specs\.([\w.]+?)(?:\.\{([^}]*)\}|(?: as (\w+))?)(?:;|$)", re.M)
CODE_USE = re.compile(r"^(?:pub )?use ((?:\w+::)+)(\w+|\{[^;]*\});", re.M)
TYPE = re.compile(r"((?:^ *///.*\n)*)(?:^#\[.*\n)*(^pub (?:struct|enum) (\w+)[^;{]*(?:;|\{\n(?:.*\n)*?\})|^ *pub const (\w+): [^=]*=[^;]*;)", re.M)
MODEL = r"(?s)^impl(?:<[^\n]*>)? Model for %s\b(?:(?!\n\}).)*?    ghost Value = \{ (.*?) \};"


class File:
    """A module of definitions or a file of code: what it declares, as (comment, lines) by name, and what its imports mean."""
    def __init__(self, text, is_code):
        self.items, self.owners, self.names, self.text = {}, {}, {}, text
        for crate, module, names, alias in USE.findall(text):
            for name in filter(None, map(str.strip, (names or f" as {alias or module.split('.')[-1]}.").split(","))):
                self.names[name.split("as ")[-1]] = (crate, module, name.split(" as ")[0].removeprefix("as "))
        named = ((front + path, name) for front, rest in CODE_USE.findall(text) for path, name in re.findall(r"((?:\w+::)*)([A-Z]\w*)", rest))
        self.outside = {name: path.split("::")[:-1] for path, name in named}
        for comment, shown, name, constant in TYPE.findall(text) if is_code else ():
            model = name and re.search(MODEL % name, text, re.M)
            lines = [f"pub type {name} -- by its model: {model[1]}"] if model else shown.split("\n")
            self.items[name or constant] = (comment.split("\n")[:-1], lines)
        for part in () if is_code else re.split(r"\n\n+", text):
            lines = [it for it in part.strip("\n").split("\n") if not re.match(r"(pub )?use |pub mod |infix", it)]
            comment = [it for it in lines if it.startswith("--")]
            if lines := lines[len(comment):]:
                self.items[(name := HEAD.match(lines[0])[2])] = (comment, lines)
                fields = [it for it in lines[1:] if re.match(r"  [^ -]", it) and " data " in f" {lines[0]}"]
                self.owners.update((word, name) for it in fields for word in it.split(" : ")[0].split())
        self.owners.update((name, name) for name in self.items)


class Repository:
    def __init__(self, root):
        self.root, self.lost = root, set()

    @functools.lru_cache(maxsize=None)
    def file(self, path):
        path = f"{self.root}/{path}"
        return File(open(path, encoding="utf-8").read(), path.endswith(".rt")) if os.path.isfile(path) else None

    def found(self, crate, module, name):
        """Returns which definition or type a module's name means, as (path, name); None if it isn't of this repository."""
        if not os.path.isdir(f"{self.root}/crates/{crate}") or module.startswith("contracts."):
            return None
        parts = [it for it in f"{module}.{name}".split(".")[1:] if it not in ("TheVariants", "TheConstants")]
        for end in range(len(parts) - 1, 0, -1) if module.startswith("declared.") else ():
            path, it = f"crates/{crate}/src/{'/'.join(parts[:end])}.rt", parts[-1 if "TheConstants" in module else end]
            if self.file(path) and it in self.file(path).items:
                return path, it
        if file := self.file(path := f"crates/{crate}/specs/{module.replace('.', '/')}.antt"):
            if name in file.owners or name in file.names:
                return (path, file.owners[name]) if name in file.owners else self.found(*file.names[name])
        return self.lost.add(f"{crate} {module} has no {name}")

    def type_of(self, path, name):
        if not (file := self.file(path)) or name in file.items or name not in file.outside:
            return (path, name) if file and name in file.items else None
        front, *rest = file.outside[name]
        crate = front if os.path.isdir(f"{self.root}/crates/{front}") else path.split("/")[1]
        return self.type_of(f"crates/{crate}/src/{'/'.join(rest if front in (crate, 'crate') else [front, *rest]) or 'lib'}.rt", name)

    def meaning(self, path, token):
        """Returns what a token in a file means, as (path, name), or None."""
        file, (front, _, rest) = self.file(path), token.partition(".")
        if front in file.owners:
            return path, file.owners[front]
        if f"{front}." in file.names and rest:
            return self.found(*file.names[f"{front}."][:2], rest.split(".")[0])
        named = next((it for name, it in file.names.items() if name == front or ("◌" in name and front in name.split("◌"))), None)
        return self.found(*named) if named else self.type_of(path, front)

    def uses(self, path, lines):
        """Returns what lines of a file use, as (path, name), by the token."""
        found, names = {}, self.file(path).names
        for clause in re.split(r"\n(?! )", "\n".join(it for it in lines if not it.lstrip().startswith(("--", "//")))):
            is_head = path.endswith(".rt") or ((mark := HEAD.match(clause)) and mark[1])
            head, body = ("", clause) if is_head else clause.partition(" =")[::2]
            bound = {word for it in re.findall(r"[({]((?:\w+ )+):|λ ((?:\w+ )*\w+)\.", clause) for word in " ".join(it).split()}
            # (texts and names of fields are no uses; on the left a constructor is one, and a variable hides a function of its name)
            body = re.sub(r"((?:^  |[{;])\s*(?:pub )?)[^\W\d]\w*(?= [:=] |: )", r"\1", re.sub(r'"[^"\n]*"', "", body), flags=re.M)
            left = {it: to for it in WORD.findall(head)[1:] if (to := self.meaning(path, it))}
            firsts = {it: self.file(file).items[name][1][0] for it, (file, name) in left.items() if name == names.get(it, (it,))[-1]}
            bound |= {it for it, line in firsts.items() if re.match("(abbrev|unfoldable) ", line)}
            used = [it for it in [*left, *WORD.findall(body)] if it.split(".")[0] not in bound]
            found.update((it, to) for it in used if (to := self.meaning(path, it)))
        return found


def statement(it):
    """Returns the text of the contracts, what they reach in the order of writing, and what each of these uses. A module is one piece."""
    call = r"(?:^///.*\n)*^pub fn run(?:_line)?(?:_with_streams)?<(?:.*\n)*?(?=\{$)"
    contracts = "\n".join(re.findall(call, it.file(RUNNING).text, re.M))
    first = it.uses(RUNNING, re.findall(r"    ensures (?:done|fits|failed|one_program) \{(?:.*\n)*?(?=    ensures|\Z)", contracts))
    waiting, uses, units = [*first.values()], {}, collections.defaultdict(list)
    while waiting:
        if (item := waiting.pop()) not in uses:
            uses[item] = {token: to for token, to in it.uses(item[0], it.file(item[0]).items[item[1]][1]).items() if to != item}
            waiting += uses[item].values()
    unit_of = {item: item[0] if item[0].endswith(".antt") else item for item in uses}
    for item in sorted(uses, key=lambda x: list(it.file(x[0]).items).index(x[1])):
        units[unit_of[item]].append(item)
    def visit(unit):
        own = units.pop(unit, [])
        return [x for item in own for to in uses[item].values() for x in visit(unit_of[to])] + own
    return contracts, [x for item in first.values() for x in visit(unit_of[item])], uses


def counted(it, items):
    these, types = ([x for x in items if x[0].endswith(kind)] for kind in (".antt", ".rt"))
    a, b = (sum(bool(x) and not re.match(r" *(--|//)", x) for path, name in of for x in it.file(path).items[name][1]) for of in (these, types))
    return f"{len(these):,} definitions in {len({x[0] for x in these})} modules, {a:,} lines; {len(types)} types of the code, {b:,} lines"


def main(target=f"{ROOT}/audit-out/statement.txt", root=ROOT):
    contracts, items, uses = statement(it := Repository(root))
    lines, crates, times = [__doc__.split("\nusage")[0]], collections.defaultdict(list), collections.Counter(name for _, name in items)
    for path, group in itertools.groupby(items, lambda x: x[0]):
        own, file, (_, crate, _, place) = list(group), it.file(path), path.split("/", 3)
        used = {(token, file.names.get(token, token.split("."))[-1], *to) for item in own for token, to in uses[item].items() if to[0] != path}
        used = [(*x, name if to.endswith(".rt") else real) for x in sorted(used) for _, real, to, name in [x]]
        notes = [f"{token} is {'that' if token == name else name} of {to[7:].replace('/specs/', ', ').replace('/src/', ', ')}"
                 for token, real, to, name, other in used if it.file(to).owners.get(real, other) == real and (token != name or times[name] > 1)]
        lines += ["", f"-- ======== {crate}, {place}: {re.match('(?:--|//!)? ?(.*)', file.text)[1]}", *(f"-- Here {x}." for x in notes)]
        lines += [x for _, name in own for x in ("", *file.items[name][0], *file.items[name][1])]
        crates[crate] += own
    ends = [f"{crate}: {counted(it, of)}" for crate, of in [*crates.items(), ("all", items)]]
    os.makedirs(os.path.dirname(os.path.abspath(target)), exist_ok=True)
    with open(target, "w", encoding="utf-8") as out:
        out.write("\n".join([*lines, "", "-- ======== The contracts", "", contracts, *(f"-- {x}" for x in ends), ""]))
    print("\n".join([*(f"FAILED: {x}" for x in sorted(it.lost)), *ends]))
    return 1 if it.lost else 0


if __name__ == "__main__":
    sys.exit(main(*sys.argv[1:]))
