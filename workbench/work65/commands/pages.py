"""work65 pages: branches and tables that cross a page."""
import argparse
from typing import Iterator, List

from work65.inspecting.command import add_arguments, inspected, write_json, write_lines
from work65.inspecting.crossings import Crossing, Crossings
from work65.inspecting.cycles import leaves_page

HELP = "list taken branches and tables that cross a page, and check the comments `; samepage`"
TEXTS = {"branch": "from {} to {}", "table": "reads {} to {}", "label": "lies from {} to {}"}
__all__ = ["HELP", "add_arguments", "run"]


def text(crossing: Crossing) -> str:
    """Returns the text of a crossing without its line."""
    said = TEXTS[crossing.what].format(f"{crossing.first:04X}", f"{crossing.last:04X}")
    return f"{crossing.line.statement or crossing.line.labels[0].name}: {said}"


def failures(crossings: Crossings) -> Iterator[str]:
    """Yields the messages of all comments that aren't true."""
    for place, wanted in crossings.asserted():
        if not wanted:
            yield f"{place}: Error: samepage: no branch, label or known table is on this line"
        for it in wanted:
            moves = "it is larger than a page"
            if it.moves is not None:
                moves = "bytes to move: {} on or {} back".format(*it.moves)
            if leaves_page(it.first, it.last):
                yield f"{place}: Error: samepage: {text(it)}; {moves}"


def summary(found: List[Crossing], unknown: int) -> str:
    """Returns the last line."""
    branches = sum(it.what == "branch" for it in found)
    said = f"crossings: {branches} by branches, {len(found) - branches} by tables"
    return f"{said}; reads through pointers to unknown tables: {unknown}"


def run(arguments: argparse.Namespace) -> int:
    """Runs the subcommand. Returns the exit status: 1 if a comment isn't true."""
    crossings = Crossings(inspected(arguments))
    found, failed, unknown = list(crossings.all()), list(failures(crossings)), crossings.unknown()
    if arguments.json:
        lines = [{"file": it.file, "line": it.number} for it in unknown]
        listed = [it.as_values() for it in found]
        write_json({"crossings": listed, "failures": failed, "unknown": lines})
    else:
        listing = [f"{it.line.place}: {text(it)}" for it in found]
        write_lines([*listing, *failed, summary(found, len(unknown))])
    return int(bool(failed))
