#!/usr/bin/env python3
"""Tests the tools of the gate, without proving anything: how they read code (gate/reader.py), when a mutant counts as refused
and which a gate tries (gate/mutants.py), what a failed gate prints and when its parts start (tests/all.py), and what the checks
of texts refuse: citations (gate/check_docs.py), types that keep too much (gate/check_streaming.py), lines of cc65's (gate/provenance.py).

usage: gate.py. The last line is 'N passed, M failed'."""
import contextlib
import glob
import io
import os
import subprocess
import sys
import tempfile

sys.path.insert(0, f"{os.path.dirname(os.path.dirname(os.path.abspath(__file__)))}/gate")
import all as gate  # noqa: E402
import check_docs  # noqa: E402
import check_streaming  # noqa: E402
import mutants  # noqa: E402
import pages  # noqa: E402
import provenance  # noqa: E402
import reader  # noqa: E402
import results  # noqa: E402
import static_checks  # noqa: E402

SOURCE = """//! Counts.

const LIMIT: u32 = 7;

/// One more: fn none() { }.
#[inline]
pub fn next(n: u32) -> u32
    requires { n < 9 }
    ensures added { result ≡ n + 1 }
{
    n + 1
}

impl<T> Counter<T> {
    fn twice(&self) -> u32
        ensures { self.now ≡ record self.now {
          n = self.now.n;
        } }
    {
        next(next(self.n))
    }
}

impl<T: Drop> From<AllocFailed<T, LIMIT>> for Counter<T> {
    fn from(e: AllocFailed<T, LIMIT>) -> Counter<T> {
        Counter { n: LIMIT }
    }
}
"""

# An edit: what it replaces and by what, and the functions that it changes.
EDITS = {
    "adds_two": ("    n + 1", "    n + 2", ["counts::next"]),
    "once": ("next(next(self.n))", "next(self.n)", ["Counter::twice"]),
    "another_limit": ("LIMIT: u32 = 7", "LIMIT: u32 = 8", []),
    "weaker": ("{ result ≡ n + 1 }", "{ result ≡ result }", []),
    "not_there": ("n + 3", "n", []),
    "twice_there": ("n", "m", []),
}


class Tree:
    """A made-up repository with one crate."""

    def __init__(self, root):
        self.root, self.folder = root, f"{root}/crates/made"
        os.makedirs(f"{self.folder}/src")
        os.makedirs(f"{self.folder}/mutants")
        self.put("crates.txt", "# NAME: the libraries\nmade: arrayvec\nhigh: made\n")
        self.put("crates/made/src/lib.rt", "pub mod counts;\n")
        self.put("crates/made/src/counts.rt", SOURCE)
        for name, (old, new, _) in EDITS.items():
            self.put(f"crates/made/mutants/{name}.edit", f"file: src/counts.rt\nold: {old}\nnew: {new}\n")
        self.edits = {name: f"{self.folder}/mutants/{name}.edit" for name in EDITS}

    def put(self, path, text):
        with open(f"{self.root}/{path}", "w", encoding="utf-8") as it:
            it.write(text)
        reader.functions.cache_clear()

    def commit(self, date, text):
        self.put("crates/made/src/counts.rt", text)
        user = {f"GIT_{who}_{it}": "a" for who in ("AUTHOR", "COMMITTER") for it in ("NAME", "EMAIL")}
        for words in (["init", "-q"], ["add", "-A"], ["commit", "-q", "-m", "made"]):
            subprocess.run(["git", *words], cwd=self.root, env={**os.environ, **user, "GIT_COMMITTER_DATE": date}, check=True)


def reading(tree):
    """Checks what is read of code, and of edits: which can be applied, and which functions they change."""
    why = {name: reader.edited(it, tree.folder)[1] for name, it in tree.edits.items()}
    own = {name: [*mutants.functions_of(it, tree.folder)] for name, it in tree.edits.items()}
    found = {it.path: it for it in reader.functions(tree.folder)}
    one, two = found.get("counts::next"), found.get("Counter::twice")
    lines = SOURCE.split("\n")
    return {
        "functions": [*found] == ["counts::next", "Counter::twice", "CounterFromAllocFailedLIMIT::from"],
        "lines": (lines[one.first], lines[one.body], lines[one.last]) == ("/// One more: fn none() { }.", "{", "}"),
        "clauses": [(name, text.strip()) for name, text in one.clauses] == [("", "n < 9"), ("added", "result ≡ n + 1")],
        "a clause with a record": len(two.clauses) == 1 and two.clauses[0][1].strip().endswith("}"),
        "owners": [it.owner for it in found.values()] == ["", "Counter", "Counter"],
        "code": "One more" not in (code := reader.code_of(tree.folder)) and "≡" not in code and "n + 1" in code,
        "crates": (crates := reader.crates(tree.root)) == {"made": ["arrayvec"], "high": ["made"]},
        "crates below": reader.below("high", crates) == {"made"},
        "edits that can't be applied": {name for name, it in why.items() if it} == {"not_there", "twice_there"},
        "functions of edits": own == {name: it[2] for name, it in EDITS.items()},
        "the text that an edit makes": "    n + 2\n" in reader.edited(tree.edits["adds_two"], tree.folder)[0]["src/counts.rt"][1],
    }


def refusals():
    """Checks when a mutant counts as refused."""
    says = lambda place, state, count="only=1 proved=0": f"{place}\nfn made::counts::next: {state}\n{count}"
    place, lost = "src/counts.rt:11:5: it is not proved", "./proofs/counts/next/Answers.antt:3:1: error: `c` has no field `n`"
    rows = (
        ("in code", True, 1, says(place, "not proved")),
        ("in a proof", True, 1, says("note: ./proofs/counts/next/Answers.antt:3:1: error: no", "no proof: expected answers")),
        ("still proved", False, 0, says("src/counts.rt:11:5: a note", "proved", "only=1 proved=1")),
        ("not covered by the borrow checker", False, 1, says(place, "no proof: the borrow checker doesn't cover it")),
        ("without an error", False, 1, says("", "not proved")),
        ("a name that was lost", False, 1, says(lost, "not proved")),
        ("not read", False, 1, "error[parse]: no"),
        ("no verdict", False, 3, says(place, "could not tell")),
    )
    said = (
        ("by a goal", True, "refused, as it must be: src/one.rt:3:1: error: no proof"),
        ("only for a name", True, "refused, as it must be (only because a proof file names what the edit took away): proofs/one"),
        ("without an error", False, "refused, as it must be"),
        ("at a limit", False, "refused, as it must be (only by a limit of the prover): src/one.rt:3:1: error"),
        ("proved", False, "NOT REFUSED: the crate is still proved with this edit"),
        ("not read", False, "BAD EDIT: the prover cannot read the edited text"),
    )
    return {
        **{f"refused: {name}": bool(mutants.refusal(status, text)) is refused for name, refused, status, text in rows},
        **{f"rt must-fail: {name}": mutants.is_refused(text) is refused for name, refused, text in said},
    }


def landing(tree):
    """Checks which mutants the gate tries: those of functions that were changed within hours before the last commit."""
    one = mutants.functions_of(tree.edits["adds_two"], tree.folder)
    tried = lambda: [(mutants.name_of(edit), [*functions]) for edit, functions in mutants.changed(mutants.changed_lines())]
    was, mutants.ROOT = mutants.ROOT, tree.root
    try:
        none = tried()
        tree.commit("2026-01-01T00:00:00Z", SOURCE)
        tree.commit("2026-01-02T00:00:00Z", SOURCE.replace("    n + 1", "    1 + n"))
        tree.commit("2026-01-02T01:00:00Z", SOURCE)
        same = tried()
        tree.commit("2026-01-02T02:00:00Z", SOURCE.replace("    n + 1", "    let m = n;\n    n + 1"))
        found = tried()
    finally:
        mutants.ROOT = was
    return {"no earlier commit": none == [], "changed back": same == [], "changed": found == [("made/adds_two", [*one])]}


# The output of `rt ci` for a crate that isn't proved, and for other failures.
NOT_PROVED = """== base65
logic=proved
rt: base65 proved
== link65
src/linker.rt:12:5: warning: a name that nothing uses
rt: chose --jobs 2 for link65
./src/linker.rt:230:9: error: the clause `files` is not proved
fn link65::linker::Linker::finish: not proved
rt: link65 NOT PROVED
rt: ld65 NOT PROVED: its library link65 failed
rt: must-fail output65/one.edit: NOT REFUSED: the crate is still proved with this edit
rt: tests_lines65: its tests FAILED
rt: bin65 is kept: an earlier run
rt: FAILED: link65 ld65""".split("\n")


def failures():
    """Checks what a failed gate prints."""
    started = []
    proofs = gate.Proofs(lambda: started.append(1))
    with contextlib.redirect_stdout(io.StringIO()) as shown:
        for line in NOT_PROVED:
            proofs.read(line)
        texts = ("print('note: x'); print('FAILED: a.rt:1:1: no'); print('3 passed, 1 failed'); exit(1)",
                 "print('0 passed, 0 failed')", "print('9 passed, 0 failed'); exit(3)",
                 "print('0 refused, 0 not')", "print('4 refused, 1 not'); exit(1)")
        parts = [gate.Part("made", ["python3", "-c", text]).run() for text in texts]
        parts[0].told()
    why = ("link65: not proved: ./src/linker.rt:230:9: error: the clause `files` is not proved; "
           "fn link65::linker::Linker::finish: not proved")
    return {
        "the prover's first error": proofs.reasons[0] == why and f"why: {why}" in shown.getvalue(),
        "what depends on it": proofs.reasons[1].startswith("ld65: not proved"),
        "other failures": [it.partition(":")[0] for it in proofs.reasons[2:]] == ["must-fail output65/one.edit", "tests_lines65"],
        "what is proved": [*proofs.ended] == ["base65", "bin65"] and started == [1],
        "how far it is": proofs.progress().startswith(f"2 of {len(proofs.crates)} crates proved; now or next syntax65, "),
        "counts": [(it.passed, it.failed) for it in parts] == [(3, 1), (0, 1), (9, 1), (0, 0), (4, 1)],
        "why a part failed": parts[0].why() == ["FAILED: a.rt:1:1: no"] and "a.rt:1:1: no" in shown.getvalue(),
    }


def starts():
    """Checks that the scripts start once, when the program is built, and that the gate runs each script that prints counts."""
    started, was = [], gate.PROGRAM
    with tempfile.TemporaryDirectory() as room:
        gate.PROGRAM, parts = f"{room}/program", gate.Beside(1)
        parts.start = lambda more, pool=None: started.extend(it.name for it in more) or parts.parts.extend(more)
        parts.start([gate.Part(*it) for it in gate.TEXTS])
        parts.start_scripts()
        before = len(started)
        open(gate.PROGRAM, "w", encoding="utf-8").close()
        parts.start_scripts()
        parts.start_scripts()
    gate.PROGRAM = was
    names = {os.path.basename(it).removesuffix(".py") for it in glob.glob(f"{gate.ROOT}/tests/*.py")} - {"all"}
    counting = {it for it in names if "passed, M failed" in pages.read(f"tests/{it}.py")[:1500]}
    run = {*gate.SCRIPTS, *gate.LAST, *(words[1].removeprefix("tests/").removesuffix(".py") for _, words in gate.TEXTS)}
    return {
        "no script without a program": before == len(gate.TEXTS),
        "scripts start once": len(started) == before + 2 + len(gate.SCRIPTS) + len(gate.EXAMPLES) and gate.MUTANTS[0] in started,
        "each script is run": counting <= run and len(counting) > 30,
    }


def citations(tree):
    """Checks which citations are refused."""
    text = "`read_index`, `read_list`, `Store::files`, `Store::last_call`, `StoreFrame`, `two words_here`"
    names = list(check_docs.why_named({"read_index", "Store", "files"}, text))
    row = lambda call, clause: check_docs.why_row(tree.root, "made", ["a claim", f"`{call}`", clause, ""])
    tree.put("crates/made/src/counts.rt", f"{SOURCE}\npub fn  last() {{}}\n")
    return {
        "names in a page": names == ["no such name: last_call", "no such name: StoreFrame", "no such name: read_list"],
        "a row": row("counts::next", "`added`, (`n`)") is None,
        "a call that isn't there": row("counts::after", "`added`") == "no such public call: counts::after",
        "a clause that isn't there": row("counts::next", "`taken`") == "no call of the row has the clause taken",
        "a text that no clause has": row("counts::next", "(`other`)") == "no call of the row has the clause other",
        "a file that isn't in the layout": list(map(os.path.basename, static_checks.in_disorder(tree.root))) == ["counts.rt"],
    }


# Additions to the linker's code, each of which keeps records or items, or builds a module.
LINKERS = {
    "a name for a list, and a field of it": "type Kept = Vec<Record>; struct Holder { kept: Kept }",
    "a list of any items, used at items": "struct Held<T> { items: Vec<T> } fn fill(held: &mut Held<Item>) {}",
    "a tuple with a condition": "struct Held<T>(Vec<Item>, T) where T: Drop;",
    "a box": "struct Held { one: Box<Item> }",
    "an option": "struct Held { one: Option<Record> }",
    "an array": "struct Held { some: [Item; 4] }",
    "a tuple": "struct Held { pair: (u8, Item) }",
    "an enum's variant": "enum Held { Nothing, One(Item) }",
    "an enum's named field": "enum Held { Nothing, One { item: Item } }",
    "a struct in a struct": "struct Inner { item: Item } struct Outer { inner: Inner }",
    "another name for items": "use object65::Item as Thing; struct Held { things: Vec<Thing> }",
    "a slice that is lent": "struct Held<'a> { items: &'a [Item] }",
    "a list in a variable": "fn keep() { let held: Vec<Item> = Vec::new(alloc); }",
    "an associated type": "impl Keeps for Linker { type Kept = Vec<Item>; }",
    "a builder": "fn whole(builder: Builder) {}",
    "an object": "use object65::Object; struct Held { object: Object }",
    "a field behind one for proofs": "struct Held { ghost seen: ℕ, item: Item, count: u32 }",
    "a field behind one for proofs, at the end": "struct Held { ghost seen: ℕ, item: Item }",
    "a struct of another name, held": "struct Inner { item: Item } type Other = Inner; struct Outer { inner: Vec<Other> }",
    "a type of another crate, at items": "struct Held { kept: base65::Sequence<Item> }",
    "a function's result": "fn all(scan: &mut Scan) -> Result<base65::Sequence<Item>, LinkFault> { todo() }",
}
# Additions to the assembler's code, each of which keeps statements.
ASSEMBLERS = {
    "a field": "struct Held { statement: Statement }",
    "a list in a field": "struct Held { statements: Vec<Statement> }",
    "a list in a variable": "fn keep() { let held: Vec<Statement> = Vec::new(alloc); }",
    "a list of pairs": "fn keep() { let held: Vec<(u32, Statement)> = Vec::new(alloc); }",
    "a list of another name": "use ast65::Statement as Said; fn keep(held: &mut Sequence<Said>) {}",
    "a list that is answered": "fn keep() -> Vec<Statement> { made() }",
    "a field behind one for proofs": "struct Held { ghost seen: ℕ, statement: Statement }",
    "a map": "fn keep(held: &mut IndexMap<u32, Statement>) {}",
}


def kept():
    """Checks that types that hold what they may not are refused where they are added to a crate's code, and that the crates are
    not. What no type shows is measured (tests/measured.py)."""
    crates = check_streaming.LINKER + check_streaming.ASSEMBLER
    code = {it: reader.code_of(f"{reader.ROOT}/crates/{it}") for it in crates}
    why = lambda crate, text: check_streaming.why_kept(crate, f"{code[crate]} {text}")
    return {
        **{f"{it} as it is": len(code[it]) > 1000 and why(it, "") is None for it in crates},
        **{f"link65: {name}": why("link65", text) is not None for name, text in LINKERS.items()},
        **{f"asm65: {name}": why("asm65", text) is not None for name, text in ASSEMBLERS.items()},
    }


LINES = [f"ROM{it}:  start = $800{it}, size = $2000;  # bank {it}" for it in range(8)]


def said_of(ours, *theirs, is_clone=True):
    """Returns the verdict on a file with these lines, if cc65 has files with those."""
    with tempfile.TemporaryDirectory() as top:
        for folder in ("ours", "theirs/cfg"):
            os.makedirs(f"{top}/{folder}")
        for path, text in [("ours/a.cfg", ours), *((f"theirs/cfg/{number}.cfg", text) for number, text in enumerate(theirs))]:
            pages.put(f"{top}/{path}", "\n".join(text))
        if is_clone:
            subprocess.run(["git", "init", "-q"], cwd=f"{top}/ours", check=True)
        return [why and why.replace(top, "") for _, why in provenance.looked_at(f"{top}/ours", f"{top}/theirs")]


def others():
    """Checks when a file counts as taken from cc65: with six lines of 30 bytes from one file, whatever their indentation."""
    refused = ["a.cfg: 6 of its lines are in /theirs/cfg/0.cfg"]
    return {
        "six lines": said_of(LINES[:6], LINES) == refused,
        "six lines where there is no clone": said_of(LINES[:6], LINES, is_clone=False) == refused,
        "six lines in another order": said_of(LINES[5::-1] + ["own"], LINES) == refused,
        "six lines with other blanks": said_of([f"\t{it.replace('  ', ' ')} " for it in LINES[:6]], LINES) == refused,
        "five lines": said_of(LINES[:5], LINES) == [None],
        "one line six times": said_of(LINES[:1] * 6, LINES) == [None],
        "three lines each of two files": said_of(LINES[:6], LINES[:3], LINES[3:]) == [None],
        "short lines": said_of([it[:29] for it in LINES], [it[:29] for it in LINES]) == [None],
        "bytes": said_of(["\0", *LINES], LINES) == [None],
    }


def main():
    checks = {**refusals(), **failures(), **starts(), **kept(), **others()}
    with tempfile.TemporaryDirectory() as room:
        tree = Tree(room)
        for part in (reading, landing, citations):
            checks |= part(tree)
    return results.report(checks)


if __name__ == "__main__":
    sys.exit(main())
