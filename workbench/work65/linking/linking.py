"""work65 link: writes the files of a link, and its map, as bin65 makes them."""
import os
import shutil
from typing import Dict, Sequence

from work65.formats.maps import Map
from work65.linking.call import WATCHED, read_call
from work65.linking.plan import Plan, plan_of
from work65.linking.run import linked
from work65.problem import Problem
from work65.program import Program
from work65.signals import folder_for_a_while

LABEL = 0xFFFFFF


def link(words: Sequence[str]) -> int:
    """Links. Raises a Problem and writes nothing if bin65 can't make what ld65 would."""
    named = words[1] if words[:1] == ["--bin65"] and len(words) > 1 else None
    program = Program.find(named)
    tool = os.environ.get(WATCHED) or shutil.which("ld65") or ""
    call = read_call(words[2:] if named else words, os.environ, tool)
    if call is None:
        raise Problem("nothing to link: give objects, and a config by -C or -t", 2)
    if call.debug:
        raise Problem("--dbgfile: bin65 makes no debug file")
    plan = plan_of(call)
    with folder_for_a_while() as folder:
        made = linked(plan, program, folder)
    files = dict(made.files)
    own = {f"__{it.name}_{kind}__" for it in plan.parts for kind in ("START", "SIZE", "LAST")}
    symbols = {name: value for name, value in made.map.symbols.items() if name not in own}
    if call.map:
        files[call.map] = _map(plan, made.map, symbols)
    if call.labels:
        lines = [f"al {value & LABEL:06X} .{name}\n" for name, value in symbols.items()]
        files[call.labels] = "".join(lines).encode()
    _write(files)
    return 0


def _map(plan: Plan, placed: Map, symbols: Dict[str, int]) -> bytes:
    """Returns the map in bin65's form, with the user's names of modules."""
    lines = ["MODULES"]
    for module in placed.modules:
        unit = plan.units.get(module.name)
        lines += [unit.name if unit else module.name] * bool(module.parts)
        lines += [f"  {it.segment} {it.offset:08X} {it.size:08X}" for it in module.parts]
    lines.append("SEGMENTS")
    lines += [f"{it.name} {it.run:08X} {it.load:08X} {it.size:08X}" for it in placed.rows]
    lines += ["SYMBOLS", *(f"{name} {value:016X}" for name, value in symbols.items()), ""]
    return os.fsencode("\n".join(lines))


def _write(files: Dict[str, bytes]) -> None:
    """Writes files. If one can't be written, those that are new are removed."""
    new = [name for name in files if not os.path.lexists(name)]
    for name, data in files.items():
        try:
            with open(name, "wb") as it:
                it.write(data)
        except OSError as error:
            for made in filter(os.path.lexists, new):
                os.remove(made)
            raise Problem(f"{name}: {error.strerror}") from error
