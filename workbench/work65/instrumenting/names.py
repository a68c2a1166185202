"""The labels of a build by their full names: `a::b` in scopes, `a::b@c` for a cheap label after b."""
from dataclasses import dataclass
from typing import Dict, Iterator, List, Optional, Tuple

from work65.formats.objects import Place
from work65.instrumenting.build import Build
from work65.instrumenting.located import LocatedModule, Symbol
from work65.instrumenting.resolve import Resolver


@dataclass(frozen=True)
class NamedAddress:
    """A label: its full name and its address. `in_file` is its offset in `file`, if it runs where it is loaded."""

    name: str
    address: int
    in_file: Optional[int]
    file: str


def scope_name(module: LocatedModule, number: int) -> str:
    """Returns the full name of a scope and `::` after it. Scopes without a name are left out."""
    parts = []
    at: Optional[int] = number
    while at is not None:
        scope = module.scopes[at]
        if scope.name:
            parts.append(scope.name)
        at = scope.parent
    return "".join(f"{it}::" for it in reversed(parts))


def full_name(module: LocatedModule, symbol: Symbol) -> str:
    """Returns the full name of a symbol."""
    if symbol.name.startswith("@") and symbol.region is not None:
        return full_name(module, module.symbols[symbol.region]) + symbol.name
    return scope_name(module, symbol.scope) + symbol.name


def of_modules(build: Build) -> Iterator[NamedAddress]:
    """Yields the labels of all modules."""
    for unit in build.units:
        resolver = Resolver(build, unit)
        if unit.located is None:
            continue
        for symbol in unit.located.symbols:
            address, place = resolver.value(symbol.value), symbol.value if isinstance(symbol.value, Place) else None
            if address is not None and not symbol.is_equate:
                is_written = place is not None and build.layout.runs_where_it_lies(place.section)
                in_file = resolver.in_file(place) if is_written and place is not None else None
                yield NamedAddress(full_name(unit.located, symbol), address, in_file, build.layout.file_of(place.section) if place else "")


def of_map(build: Build) -> Iterator[NamedAddress]:
    """Yields the exports and the names that the script defines. A name belongs to a segment if that alone runs at its address."""
    layout = build.layout
    for name, value in layout.map.symbols.items():
        rows = [it for it in layout.map.rows if it.run <= value < it.run + it.size]
        begun = layout.place_in_file(rows[0].name) if len(rows) == 1 and rows[0].run == rows[0].load else None
        in_file = None if begun is None else begun + value - rows[0].run
        yield NamedAddress(name, value, in_file, layout.file_of(rows[0].name) if rows else "")


def all_names(build: Build) -> List[NamedAddress]:
    """Returns all labels, sorted by address, each name once at an address."""
    found: Dict[Tuple[str, int], NamedAddress] = {}
    for it in [*of_modules(build), *of_map(build)]:
        found.setdefault((it.name, it.address), it)
    return sorted(found.values(), key=lambda it: (it.address, it.name))
