"""work65 check: lists constructs that bin65 rejects, with replacements."""
import argparse
import json
import os
from typing import AbstractSet, Callable, Iterator, List, Sequence

from work65.frontend import words
from work65.frontend.files import Text, text_of, walked
from work65.frontend.includes import followed
from work65.frontend.survey import surveyed
from work65.habits import scripts, sources
from work65.habits.files import Files
from work65.habits.habit import Finding
from work65.output import write
from work65.problem import Problem, complain
from work65.progress import Progress

HELP = "list every construct in sources and scripts that bin65 rejects, and what to write instead"


def add_arguments(parser: argparse.ArgumentParser) -> None:
    """Adds the arguments of this subcommand."""
    parser.add_argument("paths", nargs="+", metavar="PATH", help="a source, an include file, a script, or a folder of them")
    parser.add_argument("-I", dest="include", action="append", default=[], metavar="DIR", help="search for included files in DIR")
    parser.add_argument("-D", dest="define", action="append", default=[], metavar="NAME[=NUMBER]", help="define a constant, as for ca65")
    parser.add_argument("--target", choices=sorted(words.TARGETS), metavar="T", help="the target, as for ca65")
    parser.add_argument("--json", action="store_true", help="write the list as JSON")


def run(arguments: argparse.Namespace) -> int:
    """Lists all findings. Returns 1 if there are any, or if a file can't be read."""
    names = {it.split("=")[0] for it in arguments.define} | words.defined_by(arguments.target)
    unread: List[str] = []
    found = findings(arguments.paths, arguments.include, names, unread.append)
    for message in unread:
        complain(message)
    if arguments.json:
        write(None, os.fsencode(json.dumps([as_json(it) for it in found], indent=1) + "\n"))
    else:
        write(None, os.fsencode("".join(f"{said(it)}\n" for it in found)))
    return 1 if found or unread else 0


def findings(paths: Sequence[str], include: Sequence[str] = (), defined: AbstractSet[str] = frozenset(),
             unread: Callable[[str], None] = complain) -> List[Finding]:
    """Returns the findings in files and folders and in the files that they include, sorted by name and line. Calls `unread` with a
    message for each file and folder that can't be read."""
    names = list(walked(paths, unread))
    if not names:
        raise Problem(f"no sources and no scripts in {', '.join(paths)}")
    texts = list(_texts(names, unread))
    plain = [it for it in texts if not it.is_script]
    included = followed(plain, include)
    everything = [*plain, *included]
    found = sources.found_in(plain, surveyed(everything, include, defined), Files(everything, include), included)
    for it in texts:
        if it.is_script:
            found += scripts.found_in(it)
    return sorted(found, key=lambda it: (it.path, it.line))


def _texts(names: Sequence[str], unread: Callable[[str], None]) -> Iterator[Text]:
    """Reads files."""
    progress = Progress("files", len(names))
    for name in names:
        try:
            yield text_of(name)
        except Problem as problem:
            unread(str(problem))
        progress.step()
    progress.end()


def shown(word: str) -> str:
    """Returns a word of a source in printable characters."""
    text = word.encode("latin-1", "replace").decode("utf-8", "replace")
    return "".join(sign if sign.isprintable() else "?" for sign in text)


def said(it: Finding) -> str:
    """Returns a finding as a line."""
    return f"{it.path}:{it.line}: {shown(it.word)}: {it.cure} (MIGRATING: {it.heading})"


def as_json(it: Finding) -> "dict[str, object]":
    """Returns a finding for JSON."""
    return {"file": it.path, "line": it.line, "word": it.word, "habit": it.habit.name, "cure": it.cure, "heading": it.heading}
