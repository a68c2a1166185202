"""Lines that depend on the sign of an imported constant: for cc65's linker each is above 0.

Each module with such an import is linked by both linkers together with an object that defines it."""
import os
from dataclasses import replace
from typing import Dict, Iterator, List, Set

from work65.formats.objects import read_object
from work65.frontend.files import read_bytes
from work65.frontend.tokens import line_of
from work65.habits.habit import Finding
from work65.porting import alone
from work65.porting.beyond import HABIT, LEAST
from work65.porting.difference import Finder, LinkedModule, differing
from work65.porting.leaves import Line
from work65.porting.tools import Refused
from work65.porting.verify import Verifier
from work65.problem import Problem

NOTE = ("cc65 imports a negative constant as a positive number:"
        " export it with `& $FFFF`, or include its definition")


def exported(verifier: Verifier) -> Dict[str, int]:
    """Returns the exported constants that ld65 has otherwise than bin65."""
    found: Dict[str, int] = {}
    for it in verifier.modules:
        try:
            made = read_object(read_bytes(verifier.our_object(it)))
        except (Problem, Refused):
            continue
        values = {name: form for name, form in made.exports if isinstance(form, int)}
        found.update({name: it for name, it in values.items() if not 0 <= it < LEAST})
    return found


def found_in(verifier: Verifier) -> Iterator[Finding]:
    """Yields the lines of the original that get other bytes by the sign of an import."""
    values = exported(verifier)
    for module in verifier.modules if values else ():
        try:
            theirs, ours = verifier.their_object(module), verifier.our_object(module)
        except Refused:
            continue
        needs = alone.needs_of(theirs)
        given = {it: values[it] for it in needs.imports if it in values}
        if given:
            needs = replace(needs, imports=[it for it in needs.imports if it not in given])
            for line in sorted(_lines(verifier, module, needs, [theirs, ours], given)):
                text = verifier.ported.project.texts[line.path]
                tokens = line_of(text.lines[line.number - 1]).tokens
                word = next((it.text for it in tokens if it.text in given), list(given)[0])
                yield Finding(text.path, line.number, word, HABIT, NOTE)


def _lines(verifier: Verifier, module: str, needs: alone.Needs, objects: List[str],
           given: Dict[str, int]) -> Set[Line]:
    """Returns the lines whose bytes differ if both linkers link a module with these constants."""
    source, more = (os.path.join(verifier.room, it) for it in ("constants.s", "constants"))
    with open(source, "w", encoding="latin-1") as it:
        it.writelines(f".export {name}\n{name} = ({value >> 32} << 32) | {value & 0xFFFFFFFF}\n"
                      for name, value in given.items())
    for at in alone.PLACEMENTS:
        script, room = alone.script_of(needs, at), os.path.join(verifier.room, "link")
        try:
            verifier.theirs.assemble(source, f"{more}.cc65")
            verifier.ours().assemble(source, f"{more}.bin65")
            cc65 = verifier.theirs.link(script, [objects[0], f"{more}.cc65"], room)
            bin65 = verifier.ours().link(script, [objects[1], f"{more}.bin65"], room)
        except Refused:
            continue
        linked = LinkedModule(module, verifier.leaves(module) or [])
        finder = Finder(verifier.ported, script, bin65, {"ours.o": linked})
        leaves = [finder.leaf(*it) for it in differing(cc65, bin65)]
        lines = [verifier.ported.origin(it[0].lines[-1]) for it in leaves if it is not None]
        return {it for it in lines if it is not None}
    return set()
