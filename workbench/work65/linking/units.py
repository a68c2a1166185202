"""The inputs of a link: cc65's objects, and its libraries with their members."""
import os
from functools import lru_cache
from typing import Callable, Dict, List, NamedTuple, Sequence, Tuple, Union

from work65.frontend.files import read_bytes
from work65.linking.call import Input
from work65.problem import Problem
from work65.translating.cc65_objects import CcObject, Kind, Member, kind_of
from work65.translating.cc65_objects import read_library, read_object
from work65.translating.libraries import MemberFacts, library_of


class Unit(NamedTuple):
    """A module that a link can have: its name in messages, what it exports and imports, its exports
    in tables of .condes (name, type, priority), its segments with their sizes, whether it may have
    a .bank, why it can't be translated, and its object."""

    name: str
    exports: Sequence[str]
    imports: Sequence[str]
    condes: Sequence[Tuple[str, int, int]]
    sections: Sequence[Tuple[str, int]]
    has_bank: bool
    refusal: str
    object: Callable[[], CcObject]


class Archive(NamedTuple):
    """A library, or the libraries of a group: the members, and bin65's libraries of them."""

    name: str
    units: List[Unit]
    libraries: List[bytes]

    def names(self) -> List[str]:
        """Returns the members' names in one library, in which each is there once."""
        found: Dict[str, None] = {}
        for at, it in enumerate(self.units):
            name = it.name[it.name.index("(") + 1 : -1]
            found[f"{at}-{name}" if name in found else name] = None
        return list(found)


Module = Union[Unit, Archive]


def modules_of(inputs: Sequence[Input]) -> List[Module]:
    """Reads the inputs, in the order in which ld65 takes them: a group's libraries at its end."""
    found: List[Module] = []
    waiting: List[Archive] = []
    for at, it in enumerate(inputs):
        one = _module(it)
        if isinstance(one, Unit) or not it.group:
            found.append(one)
        else:
            waiting.append(one)
        if waiting and (at + 1 == len(inputs) or inputs[at + 1].group != it.group):
            found.append(_joined(waiting))
            waiting = []
    return found


def _module(it: Input) -> Module:
    """Reads an input."""
    data = read_bytes(it.path)
    kind = kind_of(data)
    if kind is Kind.OBJECT:
        return unit_of(read_object(data, it.name))
    if kind is not Kind.LIBRARY:
        raise Problem(f"{it.name}: neither an object nor a library of cc65's")
    return _archive(data, it.name)


def unit_of(obj: CcObject) -> Unit:
    """Returns an object as a module of a link."""
    exports = [it.name for it in obj.exports]
    imports = list(dict.fromkeys(it.name for it in obj.imports))
    condes = [(it.name, number, priority) for it in obj.exports for number, priority in it.condes]
    sections = [(it.name, it.size) for it in obj.sections]
    return Unit(obj.name, exports, imports, condes, sections, True, "", lambda: obj)


def _archive(data: bytes, name: str) -> Archive:
    """Reads a library."""
    library, base = library_of(data, name), os.path.basename(name)

    @lru_cache(maxsize=1)
    def members() -> Sequence[Member]:
        """Reads the members of cc65's library, when one of them is asked for."""
        return read_library(data, name)

    def unit(at: int, it: MemberFacts) -> Unit:
        """Returns a member."""
        facts = (it.exports, it.imports, it.condes, it.sections, it.has_bank, it.refusal)
        return Unit(f"{base}({it.name})", *facts, lambda: members()[at].object())

    units = [unit(at, it) for at, it in enumerate(library.members)]
    return Archive(base, units, [library.data])


def _joined(archives: Sequence[Archive]) -> Archive:
    """Returns the libraries of a group as one."""
    units = [unit for it in archives for unit in it.units]
    libraries = [one for it in archives for one in it.libraries]
    return Archive(" ".join(it.name for it in archives), units, libraries)
