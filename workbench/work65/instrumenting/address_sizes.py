"""Address sizes of a module's symbols, by ca65's rules: a label has its segment's size, a constant that of its expression."""
from typing import Iterable, Optional, Sequence, Set

from work65.formats.objects import Place
from work65.frontend.tokens import Kind, Token
from work65.instrumenting.layout import Layout
from work65.instrumenting.located import LocatedModule, Symbol
from work65.instrumenting.lookup import Lookup, names_in
from work65.instrumenting.roles import Role
from work65.instrumenting.sources import Closure

SHORT, LONG = "zeropage", "absolute"
# The first words of a one-byte expression, and operators whose result is 0 or 1.
BYTES = frozenset(("<", ">", "^", "!", ".lobyte", ".hibyte", ".bankbyte", ".not"))
LOGICAL = frozenset(("=", "<>", "<", ">", "<=", ">=", "&&", "||", ".and", ".or", ".xor"))
DEEPEST = 40


def of_number(value: int) -> str:
    """Returns the size of a known value. A negative one counts as large."""
    if not 0 <= value < 1 << 24:
        return "long"
    return SHORT if value < 1 << 8 else LONG if value < 1 << 16 else "far"


def short_imports(closure: Closure) -> Set[str]:
    """Returns the names that are imported as zero page addresses."""
    found: Set[str] = set()
    for source in closure.sources.values():
        for line in source.lines:
            if line.role is Role.OTHER and line.statement.head in (".importzp", ".globalzp"):
                found |= {token.text for token in line.statement.rest if token.kind is Kind.NAME}
    return found


class AddressSizes:
    """The address sizes of one module."""

    def __init__(self, layout: Layout, closure: Closure, module: LocatedModule) -> None:
        self.kinds = {it.name: it.kind for it in layout.script.segments}
        self.short = short_imports(closure)
        self.lookup, self.symbols = Lookup(module), module.symbols

    def of_segment(self, name: str) -> str:
        """Returns the size of a segment."""
        return SHORT if self.kinds.get(name) == "zp" else LONG

    def of_symbol(self, symbol: Symbol, value: int, depth: int = 0) -> str:
        """Returns the size of a label or a constant."""
        if not symbol.is_constant:
            return self.of_segment(symbol.value.section) if isinstance(symbol.value, Place) else LONG
        tokens = symbol.source.line(symbol.line).statement.body
        return self.of_expression(tokens[2:], symbol.scope, value, depth)

    def found(self, name: Sequence[str], scope: Optional[int]) -> Optional[Symbol]:
        """Resolves a name with its scopes from a scope outward."""
        number = self.lookup.found(name, scope)
        return None if number is None else self.symbols[number]

    def of_expression(self, tokens: Sequence[Token], scope: int, value: int, depth: int) -> str:
        """Returns the size of an expression: that of its first address, else that of its value."""
        texts = [it.text.lower() for it in tokens]
        if texts[:1] and texts[0] in BYTES or LOGICAL.intersection(_outer(texts[1:])):
            return SHORT
        for name in names_in(tokens):
            symbol = self.found(name, scope)
            if symbol is None:
                return SHORT if name[-1] in self.short else LONG
            if not symbol.is_constant:
                return self.of_segment(symbol.value.section) if isinstance(symbol.value, Place) else LONG
            if depth < DEEPEST and not isinstance(symbol.value, int):
                return self.of_symbol(symbol, value, depth + 1)
        return LONG if "*" in texts[:1] else of_number(value)


def _outer(texts: Sequence[str]) -> Iterable[str]:
    """Returns the words outside parentheses."""
    depth, found = 0, []
    for it in texts:
        depth += (it == "(") - (it == ")")
        if depth == 0:
            found.append(it)
    return found
