"""work65 unused: exports, procedures, data and variables that nothing refers to."""
import argparse
from dataclasses import asdict
from typing import Dict, Iterator, List

from work65.commands.size import table
from work65.inspecting.command import add_arguments as add_shared_arguments
from work65.inspecting.command import bad_input, inspected, write_json, write_lines
from work65.inspecting.references import References, Unreferred

HELP = "list exports, procedures, data, variables and library members that nothing refers to"


def add_arguments(parser: argparse.ArgumentParser) -> None:
    """Adds the arguments of this subcommand."""
    add_shared_arguments(parser)
    said = "a label where the program begins (default: the first instruction of each segment)"
    add = parser.add_argument
    add("--entry", dest="entries", action="append", default=[], metavar="LABEL", help=said)


def row(it: Unreferred) -> List[str]:
    """Returns the cells of a row."""
    return [it.name, it.kind, str(it.size), "+".join(it.segments), it.module]


def total(found: List[Unreferred]) -> str:
    """Returns the sum of all bytes, and of those by segment."""
    sums: Dict[str, int] = {}
    for it in found:
        for name, size in it.segments.items():
            sums[name] = sums.get(name, 0) + size
    listed = ", ".join(f"{name} {size}" for name, size in sums.items())
    return f"{sum(sums.values())} bytes aren't referred to" + (f": {listed}" if listed else "")


def text(references: References) -> Iterator[str]:
    """Yields the tables, the sum, and what can't be seen."""
    found, more = references.unreferred(), ["kind", "size", "segment", "module"]
    members = [[name, str(size)] for name, size in references.members()]
    tables = [
        (["EXPORT THAT NO MODULE IMPORTS", "module"], [list(it) for it in references.unimported()]),
        (["NOT REFERRED TO", *more], [row(it) for it in found if not it.is_indirect]),
        (["REFERRED TO ONLY BY THESE", *more], [row(it) for it in found if it.is_indirect]),
        (["MEMBER NEEDED ONLY BY THESE", "size"], members),
    ]
    for heads, rows in tables:
        yield from (*table(heads, rows), "") if rows else ()
    yield total(found)
    for line in references.unseen():
        yield f"{line.place}: not seen: where this leads: {line.statement}"
    for name in references.program.unknown:
        yield f"{name}: not seen: its lines; all exports count as referred to"


def values(references: References) -> Dict[str, object]:
    """Returns the same as plain values."""
    found = references.unreferred()
    unseen = references.unseen()
    jumps = [{"file": it.file, "line": it.number, "text": it.statement} for it in unseen]
    return {
        "exports": [{"name": name, "module": module} for name, module in references.unimported()],
        "not_referred_to": [asdict(it) for it in found],
        "members": [{"name": name, "size": size} for name, size in references.members()],
        "bytes": sum(it.size for it in found),
        "not_seen": {"jumps": jumps, "inputs": references.program.unknown},
    }


def run(arguments: argparse.Namespace) -> int:
    """Runs the subcommand. Returns the exit status."""
    program = inspected(arguments)
    with bad_input():
        references = References(program, arguments.entries)
    if arguments.json:
        write_json(values(references))
    else:
        write_lines(text(references))
    return 0
