"""Looks up the names of a module from a scope outward, as bin65 does."""
from typing import Dict, Iterator, List, Optional, Sequence, Tuple

from work65.frontend.tokens import Kind, Token
from work65.instrumenting.located import LocatedModule


class Lookup:
    """The symbols of a module by their scopes and names, each by its index."""

    def __init__(self, module: LocatedModule) -> None:
        self.scopes = module.scopes
        self.inner: Dict[Tuple[Optional[int], str], int] = {}
        for number, scope in enumerate(self.scopes):
            self.inner[scope.parent, scope.name] = number
        self.symbols: Dict[Tuple[int, str], int] = {}
        for number, it in enumerate(module.symbols):
            key = it.scope if it.region is None else -1 - it.region
            self.symbols[key, it.name] = number

    def found(self, name: Sequence[str], scope: Optional[int], region: int = -1) -> Optional[int]:
        """Returns the index of the symbol that a name means in a scope, None if there is none. A
        cheap label is one of the region of the label with the index `region`."""
        if name[0].startswith("@"):
            return self.symbols.get((-1 - region, name[0]))
        while scope is not None:
            inner: Optional[int] = scope
            for part in name[:-1]:
                inner = 0 if part == "" else self.inner.get((inner, part), -1)
            if inner is not None and (inner, name[-1]) in self.symbols:
                return self.symbols[inner, name[-1]]
            scope = self.scopes[scope].parent
        return None


def names_in(tokens: Sequence[Token]) -> Iterator[List[str]]:
    """Yields the names of an expression, each with its scopes before it."""
    parts: List[str] = []
    for at, it in enumerate(tokens):
        if it.text == "::":
            parts = parts or [""]
        elif it.kind in (Kind.NAME, Kind.CHEAP):
            parts.append(it.text)
            if at + 1 == len(tokens) or tokens[at + 1].text != "::":
                yield parts
                parts = []
