#!/usr/bin/env python3
"""Tests tools/rename.py: rows applied to the files of a made-up tree, rows that it refuses, and the real tree renamed and back.

usage: rename.py. The last line is 'N passed, M failed'."""
import os
import shutil
import subprocess
import sys
import tempfile

import pages

TOOL = f"{pages.ROOT}/tools/rename.py"

# Two crates: low65 declares what high65 imports; high65 has names of its own that are spelled alike.
MADE = {
    "crates.txt": "low65:\nhigh65: low65\n",
    "crates/low65/src/lib.rt": "mod store;\npub use store::{Place, Fault, read_all};\n",
    "crates/low65/src/store.rt": """ghost use Rattle.low65.specs.Outcome.{Gives, found};
/// A Place of Gives.
pub struct Place { pub line: u32, pub kept: u32 }
pub enum Fault { Gone, At(Place) }
impl Place {
    pub fn moved(&self, behind: u32) -> Place
        ensures moved { Gives found self.now behind result }
    {
        let line = behind;
        Place { line, kept: self.kept }
    }
}
pub fn read_all(place: &Place) -> Result<u32, Fault>
    ensures read { Gives found place.now result }
{
    found("Place Gives");
    if place.line == 0 { Err(Fault::Gone) } else { place.moved(1) }
}
""",
    "crates/low65/specs/Lib.antt": "pub mod Again\npub mod More\npub mod Outcome\n",
    "crates/low65/specs/Again.antt": "pub use Rattle.low65.specs.Outcome.{Gives as Yields}\nabbrev pub again : Type 0\nagain = Yields\n",
    "crates/low65/specs/More.antt": "pub data Answer : Type 0 where\n  known : Answer\n\nabbrev pub is : Answer\nis = known\n",
    "crates/low65/specs/Outcome.antt": """use Rattle.low65.specs.declared.store.Place.{Place}
use Rattle.low65.specs.declared.store.Fault.TheVariants.{Gone}
-- Gives what is found
abbrev pub Gives : Place → Type 0
Gives p = Gone ≡ found p

abbrev pub found : Place → ℕ
found p = p.found

pub record Given : Type 0 where
  pub found : ℕ

abbrev pub is : ℕ
is = 0

abbrev pub count : ℕ
count = λ c. c.kept
""",
    "crates/low65/proofs/store/read_all/Answers.antt": """use Rattle.low65.proofs.store.read_all.Goals as goal
pub returns-in-Gone-clause-read : goal.returns-in-Gone-clause-read
returns-in-Gone-clause-read c = c.args.place.line ∙ c.in_ok-moved.ensures.moved
other c = c.in_err-text.ensures.read
""",
    "crates/low65/mutants/no_line.edit": 'file: src/store.rt\nold: if place.line == 0 { Err(Fault::Gone) }\nnew: if true { Err(Fault::Gone) }\n',
    "crates/high65/src/lib.rt": """ghost use Rattle.high65.specs.Failing.{Gives};
use low65::{Fault, read_all};
mod other;
pub enum Stop { Gone, Gives }
pub fn all(it: &low65::Place) -> Result<u32, Stop>
    ensures read { Gives it.now result }
{
    ghost use Rattle.low65.specs.Outcome.{found as found_in};
    read_all(it).map_err(|e| match e { Fault::Gone => Stop::Gone, _ => Stop::Gives })
}
""",
    "crates/high65/src/other.rt": "pub struct Place;\npub fn of(p: Place, q: super::Stop) -> Place { p }\n",
    "crates/high65/specs/Lib.antt": "pub mod Failing\n",
    "crates/high65/specs/Failing.antt": """use Rattle.low65.specs.Outcome as low
abbrev pub Gives : Type 0
Gives = low.Gives × low.found
""",
    "crates/high65/proofs/all/Answers.antt": """use Rattle.low65.specs.Outcome.{Gives}
use Rattle.high65.proofs.all.Goals as goal
returns c = c.read_all.ensures.read ∙ c.in_err-bytes.ensures.read ∙ c.all.ensures.read ∙ Gives
pub read_all-requires : goal.read_all-requires
""",
    "docs/PROVED.md": "### low65\n\n| it | `read_all` | `read`; `Gives` |\n\n### high65\n\n| `Gives` | `found` |\n",
}

DEFINITION, TYPE, VARIANT = "low65\tdefinition\tOutcome\tGives\tRefines", "low65\ttype\t-\tPlace\tLocation", "low65\tvariant\tstore.Fault\tGone\tMissing"
FUNCTION, LABEL = "low65\tfunction\t-\tread_all\tread_whole", "low65\tlabel\t-\tread\tresult"
LINE = "low65\tfield\tstore\tline\tnumber"

# Of each test: rows, and lines of files that change: (file, old, new). No other line changes.
CASES = {
    "a definition": ([DEFINITION], [
        ("low65/src/store.rt", "{Gives, found}", "{Refines, found}"), ("low65/src/store.rt", "moved { Gives", "moved { Refines"),
        ("low65/src/store.rt", "read { Gives", "read { Refines"), ("low65/specs/Outcome.antt", "pub Gives", "pub Refines"),
        ("low65/specs/Again.antt", "{Gives as", "{Refines as"),
        ("low65/specs/Outcome.antt", "\nGives p", "\nRefines p"), ("high65/specs/Failing.antt", "low.Gives", "low.Refines"),
        ("high65/proofs/all/Answers.antt", "{Gives}", "{Refines}"), ("high65/proofs/all/Answers.antt", "∙ Gives", "∙ Refines"),
        ("PROVED", "`read`; `Gives`", "`read`; `Refines`")]),
    "a definition and a field of one name": (["low65\tdefinition\t-\tfound\tvalue_of"], [
        ("low65/src/store.rt", "{Gives, found}", "{Gives, value_of}"), ("low65/src/store.rt", "{ Gives found", "{ Gives value_of"),
        ("low65/specs/Outcome.antt", "≡ found", "≡ value_of"), ("low65/specs/Outcome.antt", "abbrev pub found", "abbrev pub value_of"),
        ("low65/specs/Outcome.antt", "\nfound p", "\nvalue_of p"), ("high65/src/lib.rt", "{found as", "{value_of as"),
        ("high65/specs/Failing.antt", "low.found", "low.value_of"), ("PROVED", "`found`", "`value_of`")]),
    "a definition of a name with two meanings": (["low65\tdefinition\tMore\tis\tanswer_of"], [
        ("low65/specs/More.antt", "pub is", "pub answer_of"), ("low65/specs/More.antt", "\nis =", "\nanswer_of =")]),
    "a constructor": (["low65\tdefinition\t-\tknown\tresolved"], [("low65/specs/More.antt", "known", "resolved")]),
    "a type": ([TYPE], [
        ("low65/src/lib.rt", "{Place,", "{Location,"), ("low65/src/store.rt", "struct Place", "struct Location"), ("low65/src/store.rt", "At(Place)", "At(Location)"),
        ("low65/src/store.rt", "impl Place", "impl Location"), ("low65/src/store.rt", "-> Place", "-> Location"), ("low65/src/store.rt", " Place { line", " Location { line"),
        ("low65/src/store.rt", "&Place", "&Location"), ("low65/specs/Outcome.antt", "store.Place.{Place}", "store.Location.{Location}"),
        ("low65/specs/Outcome.antt", "Gives : Place", "Gives : Location"), ("low65/specs/Outcome.antt", "found : Place", "found : Location"),
        ("high65/src/lib.rt", "low65::Place", "low65::Location")]),
    "a variant": ([VARIANT], [
        ("low65/src/store.rt", "{ Gone,", "{ Missing,"), ("low65/src/store.rt", "Fault::Gone", "Fault::Missing"),
        ("low65/specs/Outcome.antt", "{Gone}", "{Missing}"), ("low65/specs/Outcome.antt", "= Gone", "= Missing"),
        ("low65/proofs/store/read_all/Answers.antt", "in-Gone", "in-Missing"), ("low65/mutants/no_line.edit", "::Gone", "::Missing"),
        ("high65/src/lib.rt", "Fault::Gone", "Fault::Missing")]),
    "a function": ([FUNCTION], [
        ("low65/src/lib.rt", "read_all", "read_whole"), ("low65/src/store.rt", "fn read_all", "fn read_whole"),
        ("low65/proofs/store/read_all/Answers.antt", "store.read_all", "store.read_whole"), ("high65/src/lib.rt", "read_all", "read_whole"),
        ("high65/proofs/all/Answers.antt", "c.read_all", "c.read_whole"), ("PROVED", "`read_all`", "`read_whole`"),
        ("high65/proofs/all/Answers.antt", "pub read_all-", "pub read_whole-"), ("high65/proofs/all/Answers.antt", "goal.read_all-", "goal.read_whole-"),
        ("low65/proofs/store/read_all/", None, "low65/proofs/store/read_whole/")]),
    "a label of one crate": ([LABEL], [
        ("low65/src/store.rt", "ensures read {", "ensures result {"), ("low65/proofs/store/read_all/Answers.antt", "clause-read", "clause-result"),
        ("high65/proofs/all/Answers.antt", "read_all.ensures.read", "read_all.ensures.result"),
        ("low65/proofs/store/read_all/Answers.antt", "text.ensures.read", "text.ensures.result"),
        ("high65/proofs/all/Answers.antt", "bytes.ensures.read", "bytes.ensures.result"), ("PROVED", "`read`", "`result`")]),
    "a label of a crate that no proof of the other can call": (["high65\tlabel\t-\tread\tresult"], [
        ("high65/src/lib.rt", "ensures read {", "ensures result {"), ("high65/proofs/all/Answers.antt", "c.all.ensures.read", "c.all.ensures.result"),
        ("high65/proofs/all/Answers.antt", "bytes.ensures.read", "bytes.ensures.result")]),
    "a method": (["low65\tmethod\tstore.Place\tmoved\tlater"], [
        ("low65/src/store.rt", "fn moved", "fn later"), ("low65/src/store.rt", ".moved(", ".later("), ("low65/proofs/store/read_all/Answers.antt", "in_ok-moved", "in_ok-later")]),
    "a field and a variable": ([LINE, LINE.replace("field", "variable")], [
        ("low65/src/store.rt", "{ pub line:", "{ pub number:"), ("low65/src/store.rt", "let line", "let number"), ("low65/src/store.rt", "{ line,", "{ number,"),
        ("low65/src/store.rt", "place.line", "place.number"), ("low65/proofs/store/read_all/Answers.antt", "place.line", "place.number"),
        ("low65/mutants/no_line.edit", "place.line", "place.number")]),
    "a field of a bound variable": (["low65\tfield\t-\tkept\tsaved"], [
        ("low65/src/store.rt", "pub kept:", "pub saved:"), ("low65/src/store.rt", "kept: self.kept", "saved: self.saved"),
        ("low65/specs/Outcome.antt", "c.kept", "c.saved")]),
    "a word": (["low65 high65\tword\t-\tfound\tvalue"], [
        *((f"low65/{file}", old, old.replace("found", "value")) for file, olds in {
            "src/store.rt": ["{Gives, found}", "moved { Gives found", "read { Gives found", "    found("],
            "specs/Outcome.antt": ["≡ found", "pub found : Place", "\nfound p", "p.found", "pub found : ℕ"]}.items() for old in olds),
        ("high65/src/lib.rt", "{found as", "{value as"), ("high65/specs/Failing.antt", "low.found", "low.value"), ("PROVED", "`found`", "`value`")]),
    "a module of code": (["low65\tsource-module\t-\tstore\tdisk"], [
        ("low65/src/lib.rt", "mod store", "mod disk"), ("low65/src/lib.rt", "use store", "use disk"), ("low65/specs/Outcome.antt", "declared.store", "declared.disk"),
        ("low65/proofs/store/read_all/Answers.antt", "proofs.store", "proofs.disk"), ("low65/mutants/no_line.edit", "src/store.rt", "src/disk.rt"),
        ("low65/src/store.rt", None, "low65/src/disk.rt"), ("low65/proofs/store/", None, "low65/proofs/disk/")]),
    "a module of definitions": (["low65\tspec-module\t-\tOutcome\tResults"], [
        ("low65/src/store.rt", "specs.Outcome", "specs.Results"), ("low65/specs/Lib.antt", "mod Outcome", "mod Results"),
        ("low65/specs/Again.antt", "specs.Outcome", "specs.Results"), ("high65/src/lib.rt", "specs.Outcome", "specs.Results"),
        ("high65/specs/Failing.antt", "specs.Outcome", "specs.Results"), ("high65/proofs/all/Answers.antt", "specs.Outcome", "specs.Results"),
        ("low65/specs/Outcome.antt", None, "low65/specs/Results.antt")]),
}

# Rows that are refused, and the reason.
REFUSED = {
    "a name of the crate": (["low65\tdefinition\t-\tGives\tGiven"], "crates/low65/specs/Outcome.antt:10 has Given already"),
    "a name of the crate in other letters": (["low65\tdefinition\t-\tfound\tfault"], "crates/high65/src/lib.rt:2 has Fault already"),
    "a name that a file which imports it has": (["low65\ttype\t-\tPlace\tStop"], "crates/high65/src/lib.rt:4 has Stop already"),
    "other letters": (["low65\tfunction\t-\tread_all\tplace"], "has place already"),
    "a name of the Prelude": (["low65\tdefinition\t-\tGives\tIfSome"], "Prelude.antt:"),
    "a name that is nowhere": (["low65\tdefinition\t-\tTakes\tStepsTo"], "is not declared there"),
    "a name with two meanings": (["low65\tdefinition\t-\tis\tis_known"], "is declared in More, Outcome: name the module"),
    "a field without its variable": ([LINE], "crates/low65/src/store.rt:10: a field and a variable in one word"),
    "a word that another crate imports": (["low65\tword\t-\tfound\tvalue"], "crates/high65/src/lib.rt imports it: name its crate, too"),
    "a module that is there": (["low65\tsource-module\t-\tstore\tFault"], "crates/low65/src/lib.rt is or has Fault"),
}

# Rows of each kind for the real tree: the new name is the old one with an ending.
REAL = """base65 definition Outcome Refines|base65 definition Outcome RefinesProp|base65 definition Relations RefinesRel
base65 definition Store PropagatesIoError|base65 definition Store LastFailure|base65 type - PathString|base65 type - ListVec
syntax65 type source_location SourceLocation|cli65 type - LinkArgs|object65 definition Reading StoreFrame
asm65 definition Internal.RunState RefinesTransition|asm65 definition Internal.AssemblerState Represents|sources65 definition Machine StepsTo
script65 type reading.keyword_tables ValueKind|script65 type - SegmentRow|script65 type - MemoryArea|script65 type reading.grammar ParseState
expand65 type - Replacement|expand65 method - replacement_for|semantics65 type - EncodingChoice
semantics65 variant contexts.EncodingChoice Undecided|semantics65 type - LocationRef|semantics65 definition Module piece_result
semantics65 definition Symbols LaidOutStatement|asm65 source-module - statement|asm65 source-module - finish
asm65 spec-module - Internal|output65 function - commit_outcome|symbols65 variant table.symbols.SearchEntry KnownForm
link65 type fault ModuleLocation|emit65 variant entries.SectionEntry DeclarationEntry|script65 method reading.entries.ConfigEntry flag_for
* label - at_last_count|library65 function - MAGIC|library65 proof-module - Selections|* word - is_system_error
expand65 field - pending|expand65 variable - pending"""


def renamed(top, rows, *words):
    """Runs the tool on a tree; returns its status and what it printed."""
    pages.put(f"{top}.tsv", "\n".join(rows) + "\n")
    ran = subprocess.run([sys.executable, "-B", TOOL, f"{top}.tsv", "--tree", top, *words], capture_output=True, text=True, check=False)
    return ran.returncode, ran.stdout + ran.stderr


def files_of(top):
    """Returns the files of a tree: path to text."""
    paths = [f"{folder}/{name}" for folder, _, names in os.walk(top) for name in names]
    return {os.path.relpath(it, top): open(it, encoding="utf-8", newline="").read() for it in paths}


def made(folder):
    for path, text in MADE.items():
        os.makedirs(os.path.dirname(f"{folder}/{path}"), exist_ok=True)
        pages.put(f"{folder}/{path}", text)
    return folder


def expected(changes):
    """Returns the made-up files after these changes."""
    files = dict(MADE)
    for file, old, new in changes:
        path = "docs/PROVED.md" if file == "PROVED" else f"crates/{file}"
        if old is None:
            files = {it.replace(path, f"crates/{new}"): text for it, text in files.items()}
        else:
            assert old in files[path], (file, old)
            files[path] = files[path].replace(old, new)
    return files


def case_checks(top):
    """Yields of each case whether the files are those that are expected, then of the way back, and of what states the same."""
    for number, (name, (rows, changes)) in enumerate(CASES.items()):
        tree, other = made(f"{top}/{number}"), made(f"{top}/{number}-other")
        said = renamed(tree, rows)
        found = files_of(tree)
        wrong = [it for it in {*found, *expected(changes)} if found.get(it) != expected(changes).get(it)]
        yield name, f"{wrong} {said}" if wrong or said[0] else None
        said = renamed(other, rows, "--same", tree)
        yield f"{name}: it states the same", None if said[0] == 0 and " 0 differ" in said[1] else said[1]
        said = renamed(tree, rows, "--back")
        yield f"{name}, and back", None if files_of(tree) == MADE else said[1]


def refusal_checks(top):
    for number, (name, (rows, why)) in enumerate(REFUSED.items()):
        tree = made(f"{top}/refused{number}")
        said = renamed(tree, rows)
        yield f"{name} is refused", None if said[0] == 1 and why in said[1] and files_of(tree) == MADE else said[1]


def other_checks(top):
    tree = made(f"{top}/more")
    said = renamed(tree, [DEFINITION, TYPE], "--check")[1]
    yield "--check changes nothing", None if files_of(tree) == MADE else said
    wanted = ["crates/low65/src/store.rt:2: comment: /// A Place of Gives.", "crates/low65/specs/Outcome.antt:3: comment: -- Gives what is found"]
    yield "comments are listed", None if all(it in said for it in wanted) else said
    other = made(f"{top}/another")
    pages.put(f"{other}/crates/low65/specs/Outcome.antt", MADE["crates/low65/specs/Outcome.antt"].replace("p.found", "0"))
    renamed(tree, [TYPE])
    said = renamed(other, [TYPE], "--same", tree)
    yield "another definition is not the same", None if said[0] == 1 and "renamed: ['found p = 0']" in said[1] else said[1]


def real_checks(top):
    """Yields whether the real tree changes, and is itself again after the way back."""
    tree = f"{top}/real"
    for name in ("crates", "docs", "gate", "tests"):
        shutil.copytree(f"{pages.ROOT}/{name}", f"{tree}/{name}", ignore=shutil.ignore_patterns("out", "__pycache__", "screens"))
    shutil.copy(f"{pages.ROOT}/crates.txt", tree)
    git = ["git", "-C", tree, "-c", "user.name=test", "-c", "user.email=test", "-c", "core.autocrlf=false"]
    for words in (["init", "-q"], ["add", "-Af"], ["commit", "-qm", "before"]):
        subprocess.run([*git, *words], check=True, stdout=subprocess.DEVNULL)
    rows = ["\t".join([*it.split(), it.split()[-1] + ("Anew" if it.split()[-1][0].isupper() else "_anew")]) for line in REAL.split("\n") for it in line.split("|")]
    said = renamed(tree, rows)
    changed = subprocess.run([*git, "diff", "--name-only"], check=True, capture_output=True, text=True).stdout.split()
    yield f"{len(rows)} rows on the real tree", None if said[0] == 0 and len(changed) > 300 else said[1][-2000:]
    said = renamed(tree, rows, "--back")
    left = subprocess.run([*git, "status", "--short"], check=True, capture_output=True, text=True).stdout
    yield "and back", None if said[0] == 0 and not left else f"{said[1][-2000:]}\n{left}"


def main():
    count = failed = 0
    with tempfile.TemporaryDirectory() as top:
        for checks in (case_checks, refusal_checks, other_checks, real_checks):
            for name, why in checks(top):
                count, failed = count + 1, failed + bool(why)
                if why:
                    print(f"FAILED {name}: {why}")
    print(f"{count - failed} passed, {failed} failed")
    sys.exit(failed > 0)


if __name__ == "__main__":
    main()
