#!/usr/bin/env python3
"""Checks gate/audit.py, which writes the definitions that the public clauses reach: on a made-up repository, whose reached definitions are
known; on one with a name that isn't defined; and on this repository, whose counts and modules docs/TRUST.md and docs/PROVED.md state.

usage: audit.py. The last line is 'N passed, M failed'."""
import contextlib
import io
import os
import re
import sys
import tempfile

import pages
import results

sys.path.insert(0, f"{pages.ROOT}/gate")
import audit

FILES = {
    "crates/low65/src/lib.rt": "pub use kinds::Width;\n",
    "crates/low65/src/kinds.rt": """//! Kinds.

/// A width.
#[derive(Drop)]
pub enum Width {
    Byte,
    Other(Inner),
}

pub struct Inner {
    tree: Boxed,
}

pub struct Boxed {
    hidden: Never,
}

impl Model for Boxed {
    ghost use Rattle.low65.specs.Trees.{Tree};

    ghost Value = { Tree };
}

pub struct Never;
""",
    "crates/low65/specs/Trees.antt": """-- Trees.
use Rattle.std.specs.Prelude.{ℕ, List}

-- a tree
pub data Tree : Type 0 where
  leaf : ℕ → Tree
  node : List Tree → Tree

abbrev pub size : ℕ
size = 1

abbrev pub unused : ℕ
unused = size
""",
    "crates/low65/specs/Passed.antt": "-- Passes names on.\npub use Rattle.low65.specs.Trees.{size as weight, unused}\n",
    "crates/tools65/src/running.rt": """//! Runs.

ghost use Rattle.tools65.specs.Command.{Does, Fits as IsSmall, Unread};
use low65::Width;

/// Runs.
pub fn run<W>(x: Width) -> u8
    requires { Unread x }
    ensures done { Does x
        result }
    ensures fits { IsSmall x }
    ensures later { Unread x }
{
    0
}
""",
    "crates/tools65/specs/Command.antt": """-- Commands.
use Rattle.std.specs.Prelude.{ℕ}
use Rattle.low65.specs.declared.kinds.Width.{Width}
use Rattle.low65.specs.declared.kinds.Width.TheVariants as width
use Rattle.low65.specs.Passed.{weight}
use Rattle.low65.specs.Trees as trees

-- uses the second constructor
abbrev pub first_size : Width → ℕ
first_size width.Byte = 0
first_size x = weight

-- its variable has the name of a definition, and so has a field
abbrev pub Does : Width → ℕ → Type 0
Does x unread_size = first_size x + unread_size + (λ other_size. other_size) 1

pub record Fits (x : Width) : Type 0 where
  -- of unread_size a comment isn't a use
  pub unread_size : trees.Tree

abbrev pub unread_size : ℕ
unread_size = 2

abbrev pub other_size : ℕ
other_size = 3

abbrev pub Unread : Width → Type 0
Unread x = Does x 0
""",
}
REACHED = {"kinds.rt": ["Boxed", "Inner", "Width"], "Trees.antt": ["Tree", "size"], "Command.antt": ["Does", "Fits", "first_size"]}
COUNTS = "5 definitions in 2 modules, 12 lines; 3 types of the code, 8 lines"
STATED = re.compile(r"[\d,]+ definitions in \d+ modules, [\d,]+ lines; \d+ types of the code, [\d,]+ lines")


def run(root, files=()):
    """Writes files into a folder and audits it. Returns the status, what was printed and what was written."""
    for name, text in dict(files).items():
        os.makedirs(os.path.dirname(f"{root}/{name}"), exist_ok=True)
        with open(f"{root}/{name}", "w", encoding="utf-8") as it:
            it.write(text)
    with tempfile.TemporaryDirectory() as folder, contextlib.redirect_stdout(io.StringIO()) as out:
        status = audit.main(f"{folder}/new/statement.txt", root)
        with open(f"{folder}/new/statement.txt", encoding="utf-8") as it:
            return status, out.getvalue().splitlines(), it.read()


def made_up(checks):
    """Audits the made-up repository, and the same with a name that isn't defined."""
    with tempfile.TemporaryDirectory() as root:
        status, said, text = run(root, FILES)
        _, items, _ = audit.statement(audit.Repository(root))
        found = {file: sorted(name for path, name in items if path.endswith(f"/{file}")) for file in REACHED}
        checks["made up: what is reached"] = found == REACHED and len(items) == sum(map(len, REACHED.values()))
        checks["made up: the counts"] = status == 0 and said[-1] == f"all: {COUNTS}" and text.endswith(f"-- all: {COUNTS}\n")
        checks["made up: counts by crate"] = [it.split(":")[0] for it in said] == ["low65", "tools65", "all"]
        checks["made up: a model in place of a type"] = "pub type Boxed -- by its model: Tree" in text and "hidden" not in text
        renamed = "Commands.\n-- Here trees.Tree is Tree of low65, Trees.antt.\n-- Here weight is size of low65, Trees.antt.\n"
        checks["made up: what renamed names mean"] = renamed in text
        checks["made up: no imports"] = not re.search(r"^use ", text, re.M)
        checks["made up: comments, and the contract"] = "-- a tree\n" in text and "ensures later" in text
        lost = FILES["crates/low65/specs/Trees.antt"].replace("size", "extent")
        status, said, _ = run(root, {"crates/low65/specs/Trees.antt": lost})
        checks["a name that isn't defined"] = status == 1 and "FAILED: low65 Trees has no size" in said
        more = FILES["crates/tools65/specs/Command.antt"].replace("first_size x = weight", "first_size x = other_size")
        _, said, text = run(root, {**FILES, "crates/tools65/specs/Command.antt": more})
        checks["another definition is reached"] = "other_size = 3" in text and "\nsize = 1" not in text


def reach(it, *names):
    """Returns what definitions reach, given as (crate, module, name)."""
    found, waiting = set(), [it.found(*name) for name in names]
    while waiting:
        if (item := waiting.pop()) not in found:
            found.add(item)
            waiting += it.uses(item[0], it.file(item[0]).items[item[1]][1]).values()
    return found


def lines(it, items):
    return int(audit.counted(it, list(items)).split(" modules, ")[1].split(" ")[0].replace(",", ""))


def real(checks):
    """Audits this repository, and compares what pages say."""
    it = audit.Repository(pages.ROOT)
    _, items, uses = audit.statement(it)
    status, said, _ = run(pages.ROOT)
    checks["each name that is used is defined"] = status == 0
    place = {item: at for at, item in enumerate(items)}
    early = [(item, to) for item in items for to in uses[item].values() if place[to] > place[item]]
    checks["each name is defined above its uses"] = all(item in uses[to].values() for item, to in early) and len(place) == len(items)
    trust, proved = pages.read("docs/TRUST.md"), pages.read("docs/PROVED.md")
    checks[f"docs/TRUST.md states {said[-1]}"] = STATED.findall(trust) == [said[-1].partition(": ")[2]]
    # (there is a log only after `make program`, and it has these lines only at its end)
    log = "crates/bin65/out/prove.log"
    if assumed := re.findall("^axioms .*", pages.read(log) if os.path.exists(f"{pages.ROOT}/{log}") else "", re.M):
        checks["docs/TRUST.md has the axioms of the program's proof"] = assumed == re.findall("^axioms .*", trust, re.M)
    image = reach(it, ("tools65", "OneProgram", "HasImage"))
    shared = image & reach(it, ("tools65", "OneProgram", "IsObjectOf"), ("whole65", "Equality", "IsLinkedTo"))
    share = f"{100 * lines(it, shared) // lines(it, image)} % of the lines"
    checks[f"docs/TRUST.md states {share}"] = share in trust
    text = " ".join(" ".join(it.file(path).items[name][1]) for path, name in [*items, it.found("tools65", "OneProgram", "OneProgramLaw")])
    for page in ("THEOREM", "PROVED"):
        for quote in re.findall(r"^```\n((?:RunHasOutcome|AreObjectsOf) .*?)^```$", pages.read(f"docs/{page}.md"), re.M | re.S):
            checks[f"docs/{page}.md quotes {quote.split()[0]}"] = " ".join(quote.split()) in " ".join(text.split())
    order = re.search(r"^## Reading order$(.*?)^## ", proved, re.M | re.S)[1]
    named = {(crate, module) for crate, of in re.findall(r"(\w+65) ((?:`\w+`(?:, )?)+)", order) for module in re.findall(r"\w+", of)}
    there = {(path.split("/")[1], path.split("/")[-1][:-5]) for path, _ in items if path.endswith(".antt")}
    for what, of in (("lacks", there - named), ("has beside what is reached", named - there)):
        checks[f"the reading order {what}: {', '.join(' '.join(it) for it in sorted(of)) or 'nothing'}"] = not of


def main():
    checks = {}
    made_up(checks)
    real(checks)
    return results.report(checks)


if __name__ == "__main__":
    sys.exit(main())
