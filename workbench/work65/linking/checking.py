"""Checks one link: cc65's linker and bin65 make its files, and both are compared."""
import os
import shutil
from typing import Dict, Mapping, NamedTuple, Optional, Sequence

from work65.frontend.files import read_bytes
from work65.linking import theirs
from work65.linking.call import OUTPUT, Call, read_call
from work65.linking.comparing import DIFFERENT, SAME, UNKNOWN, Verdict, compared, moved
from work65.linking.plan import Plan, plan_of
from work65.linking.run import MAP, SCRIPT, linked
from work65.linking.script import OUTPUT as IMAGE
from work65.problem import Problem
from work65.program import Program
from work65.signals import folder_for_a_while

REPEAT = "link.txt"


class Tools(NamedTuple):
    """What checks a link: cc65's linker, bin65, and the folder for what bin65 linked ("": none)."""

    linker: str
    program: Program
    kept: str = ""


def checked(words: Sequence[str], tools: Tools, is_done: bool) -> Optional[Verdict]:
    """Checks a link by its command line; None if it links nothing. If `is_done`, cc65's linker has
    made its files already."""
    pairs = zip(words, [*words[1:], ""])
    named = [one[2:] or other for one, other in pairs if one.startswith("-o")]
    name = next(filter(None, named), OUTPUT)
    try:
        call = read_call(words, os.environ, tools.linker)
        if call is None:
            return None
        name = call.output
        if is_done and os.path.realpath(name) in {os.path.realpath(it.path) for it in call.inputs}:
            raise Problem(f"{name} is an input and the output")
        with folder_for_a_while() as folder:
            return _checked(call, tools, folder, is_done)
    except (Problem, OSError) as error:
        why = error.strerror if isinstance(error, OSError) else error
        return Verdict(UNKNOWN, f"{name}: not compared: {why}", {})


def _checked(call: Call, tools: Tools, folder: str, is_done: bool) -> Verdict:
    """Checks a link in a folder. The addresses are compared by a map of cc65's linker, which may
    fail at a link that it makes without."""
    lacking = ""
    try:
        other = theirs.link(call, tools.linker, folder)
    except Problem as problem:
        lacking = f"; addresses not compared: {problem}"
        other = theirs.link(call, tools.linker, folder, False)
    plan = plan_of(call)
    ours = linked(plan, tools.program, folder)
    found = compared(plan, _made(plan, other.files) if is_done else other.files, ours)
    label = plan.label(found.sizes)
    if tools.kept:
        keep(plan, folder, os.path.join(tools.kept, os.path.basename(label)))
    said = moved(plan, other, ours)
    if found.verdict == SAME and said:
        text = f"{label}: the same image, but other addresses: {said}"
        return Verdict(DIFFERENT, text, found.sizes)
    return found._replace(text=found.text + lacking)


def _made(plan: Plan, again: Mapping[str, bytes]) -> Dict[str, bytes]:
    """Returns the files that cc65's linker has made where it ran, and in the place of a device what
    it makes again."""
    there = [it for it in plan.made if os.path.exists(it)]
    return {it: read_bytes(it) if os.path.isfile(it) else again.get(it, b"") for it in there}


def keep(plan: Plan, folder: str, kept: str) -> None:
    """Copies what bin65 linked to a new folder, with the command that repeats the link."""
    number = 1
    while True:
        room = kept if number == 1 else f"{kept}-{number}"
        try:
            os.makedirs(room)
            break
        except FileExistsError:
            number += 1
    for name in os.listdir(folder):
        if not name.startswith(theirs.IMAGE):
            shutil.copyfile(os.path.join(folder, name), os.path.join(room, name))
    inputs = " ".join(name for name, _ in plan.inputs)
    with open(os.path.join(room, REPEAT), "w", encoding="utf-8") as it:
        it.write(f"bin65 ld65 -C {SCRIPT} -o {IMAGE} -m {MAP} {inputs}\n")
