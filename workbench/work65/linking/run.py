"""Links a plan with bin65 in a folder, and reads what bin65 made."""
import os
import re
from typing import Dict, List, Mapping, NamedTuple

from work65.formats.maps import Map, read_map
from work65.frontend.files import read_bytes
from work65.linking import containers
from work65.linking.config import ATARI
from work65.linking.linear import Linear
from work65.linking.plan import Plan
from work65.linking.script import OUTPUT
from work65.problem import Problem
from work65.program import Program

SCRIPT, MAP = "link.cfg", "map"


class Linked(NamedTuple):
    """A link by bin65: the files by the names that the config gives, the map, and the numbers of
    the script's names."""

    files: Dict[str, bytes]
    map: Map
    numbers: Dict[str, int]


def write_plan(plan: Plan, folder: str) -> List[str]:
    """Writes what bin65 needs into a folder. Returns bin65's arguments."""
    for name, data in [(SCRIPT, plan.script.encode("latin-1")), *plan.inputs]:
        with open(os.path.join(folder, name), "wb") as it:
            it.write(data)
    return ["ld65", "-C", SCRIPT, "-o", OUTPUT, "-m", MAP, *(name for name, _ in plan.inputs)]


def linked(plan: Plan, program: Program, folder: str) -> Linked:
    """Links a plan. Raises a Problem with bin65's message if bin65 can't."""
    ran = program.run(write_plan(plan, folder), folder)
    if ran.status and ran.err:
        raise Problem(f"bin65 refuses: {_named(os.fsdecode(ran.err), plan)}")
    if not os.path.isfile(os.path.join(folder, MAP)):
        raise Problem(f"{program.path} makes no map: it isn't bin65")
    placed = read_map(read_bytes(os.path.join(folder, MAP)), "bin65's map")
    numbers = dict(placed.symbols)
    for it in placed.rows:
        for kind, number in (("RUN", it.run), ("LOAD", it.load), ("SIZE", it.size)):
            numbers[f"__{it.name}_{kind}__"] = number
    return Linked(_files(plan, folder, numbers), placed, numbers)


def number_of(value: Linear, numbers: Mapping[str, int]) -> int:
    """Returns the number of a sum by the numbers of bin65's names."""
    return value.number + sum(count * numbers[name] for name, count in value.names.items())


def _files(plan: Plan, folder: str, numbers: Mapping[str, int]) -> Dict[str, bytes]:
    """Returns the files that the link makes."""
    found: Dict[str, bytes] = {}
    pieces: Dict[str, List[containers.Piece]] = {}
    for part in plan.parts:
        # bin65 writes no file where an area has no bytes.
        path = os.path.join(folder, plan.files.get(part.name, ""))
        data = read_bytes(path) if os.path.isfile(path) else b""
        if plan.config.formats.get(part.file) == ATARI:
            start = number_of(part.symbol("START"), numbers)
            first = numbers[f"__{part.rows[0].name}_LOAD__"] if part.rows else start + len(data)
            piece = containers.Piece(part.area, start, data, first > start)
            pieces.setdefault(part.file, []).append(piece)
        elif part.file:
            found[part.file] = data
    for name in plan.made:
        if plan.config.formats.get(name) == ATARI:
            found[name] = containers.atari(pieces.get(name, ()), plan.config.atari, numbers)
    return {**dict.fromkeys(plan.made, b""), **found}


def _named(text: str, plan: Plan) -> str:
    """Returns the first line of a message of bin65's with the user's modules and areas."""
    text = text.strip().split("\n")[0]
    for file, unit in plan.units.items():
        if text.startswith(f"{file}:"):
            return unit.name + text[len(file) :]
    areas = {it.name: it.area for it in plan.parts}
    return re.sub(r"\w+", lambda it: areas.get(it[0], it[0]), text)
