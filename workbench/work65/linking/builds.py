"""work65 second with a command, or with a command line of ld65: checks the links of a build."""
import json
import os
import re
import shutil
from typing import NamedTuple, Optional, Sequence, Tuple

from work65.linking.checking import Tools, checked
from work65.linking.comparing import DIFFERENT, SAME, UNKNOWN, Verdict
from work65.output import write_out
from work65.problem import Problem
from work65.program import Program

NOT_COMPARED = 2
STATUS = {SAME: 0, DIFFERENT: 1, UNKNOWN: NOT_COMPARED}
CONTROL = re.compile("[\x00-\x1f\x7f]")


class Wanted(NamedTuple):
    """What the command line of `work65 second` asks for, before the command."""

    kept: str
    is_json: bool
    bin65: Optional[str]


def linker() -> str:
    """Returns the path of cc65's linker."""
    home = os.path.join(os.environ.get("CC65_HOME", ""), "bin", "ld65")
    found = shutil.which("ld65") or shutil.which(home)
    if found is None:
        raise Problem("cc65's ld65 isn't on the path")
    return os.path.abspath(found)


def wanted_of(words: Sequence[str]) -> Tuple[Wanted, Sequence[str]]:
    """Returns what a command line asks for, and the words after that."""
    wanted, at = Wanted("", False, None), 0
    while at < len(words):
        word, value = words[at], words[at + 1] if at + 1 < len(words) else ""
        if word == "--json":
            wanted, at = wanted._replace(is_json=True), at - 1
        elif word == "--keep" and value not in ("", "--"):
            wanted = wanted._replace(kept=os.path.abspath(value))
        elif word == "--bin65" and value:
            wanted = wanted._replace(bin65=value)
        else:
            break
        at += 2
    return wanted, words[at:]


def run_words(words: Sequence[str]) -> Optional[int]:
    """Runs `second .. ld65 ARGUMENT ..` and `second .. -- COMMAND ..`; None for other words."""
    wanted, rest = wanted_of(words)
    try:
        if rest[:1] == ["ld65"]:
            make_folder(wanted.kept)
            return one_link(rest[1:], wanted)
        if rest[:1] == ["--"] and len(rest) > 1:
            from work65.linking.watching import watched

            make_folder(wanted.kept)
            return watched(rest[1:], wanted)
        if rest[:1] == ["--keep"]:
            raise Problem("--keep lacks its folder")
        has_script = any(it.startswith("-C") for it in rest)
        if rest and shutil.which(rest[0]) and not (has_script and os.path.isfile(rest[0])):
            raise Problem(f"a command follows --, as in: work65 second -- {rest[0]}")
    except Problem as problem:
        raise Problem(str(problem), NOT_COMPARED) from problem
    return None


def make_folder(kept: str) -> None:
    """Makes the folder for what bin65 linked, in which nothing may be."""
    try:
        if kept:
            os.makedirs(kept, exist_ok=True)
        if kept and os.listdir(kept):
            raise Problem(f"--keep {kept}: the folder isn't empty")
    except OSError as error:
        raise Problem(f"--keep {kept}: {error.strerror}") from error


def one_link(words: Sequence[str], wanted: Wanted) -> int:
    """Checks one link."""
    found = checked(words, Tools(linker(), Program.find(wanted.bin65), wanted.kept), False)
    if found is None:
        raise Problem("ld65 is given nothing to link")
    return report([found], wanted)


def report(links: Sequence[Verdict], wanted: Wanted) -> int:
    """Prints a line for each link, or all as JSON. Returns the status: that of a difference before
    that of a link that wasn't compared."""
    if wanted.is_json:
        text = json.dumps({"links": [it._asdict() for it in links]}, indent=1) + "\n"
    else:
        text = "".join(f"{CONTROL.sub('?', it.text)}\n" for it in links)
    write_out(os.fsencode(text))
    statuses = {STATUS[it.verdict] for it in links}
    return 1 if 1 in statuses else max(statuses, default=NOT_COMPARED)
