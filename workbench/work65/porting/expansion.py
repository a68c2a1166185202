"""Macros, and which of them bin65 can't expand."""
from dataclasses import dataclass, field
from typing import Dict, FrozenSet, List, Sequence, Set

from work65.frontend import words
from work65.frontend.includes import late
from work65.frontend.statements import block_length, statement_in, statement_of
from work65.frontend.tokens import Kind, Token, line_of
from work65.porting.characters import has_text
from work65.porting.logical import Logical

# Functions of tokens, before which each `.define` is replaced.
OF_TOKENS = frozenset((".match", ".xmatch", ".left", ".mid", ".right", ".tcount", ".string", ".ident"))
# Directives for which a macro is expanded where it is called.
HARD = OF_TOKENS | frozenset(
    (".strlen", ".strat", ".concat", ".sprintf", ".set", ".charmap", ".min", ".max", ".define", ".undefine", ".undef", ".const",
     ".constructor", ".destructor", ".interruptor", ".condes", ".bank")
)
SCOPES = words.SCOPE_BEGINS | words.SCOPE_ENDS


@dataclass
class Macro:
    """A macro of the tree: its parameters, its lines, and their directives, names and labels."""

    parameters: List[str]
    lines: List[str] = field(default_factory=list)
    directives: Set[str] = field(default_factory=set)
    names: Set[str] = field(default_factory=set)
    cheap: Set[str] = field(default_factory=set)
    locals: Set[str] = field(default_factory=set)
    labels: List[str] = field(default_factory=list)
    codes: Dict[int, int] = field(default_factory=dict)
    has_text: bool = False
    has_shift: bool = False
    has_nested_scopes: bool = False
    is_ambiguous: bool = False
    leaves_repeat: bool = False
    sizes_parameter: bool = False
    names_file: bool = False
    depth: int = 0
    repeats: int = 0

    def add(self, text: str, has_escapes: bool) -> None:
        """Adds a line."""
        self.lines.append(text)
        tokens = line_of(text, has_escapes).tokens
        self.has_text = self.has_text or has_text(tokens)
        for it in tokens:
            if it.kind is Kind.DIRECTIVE:
                self.directives.add(it.lower)
            elif it.kind is Kind.NAME:
                self.names.add(it.text)
            elif it.kind is Kind.CHEAP:
                self.cheap.add(it.text)
            self.has_shift = self.has_shift or it.lower in (">>", ".shr")
        files = zip(tokens, tokens[1:])
        self.names_file = self.names_file or any(it.lower in (".include", ".incbin") and name.kind is not Kind.STRING for it, name in files)
        sized = zip(tokens, tokens[1:], tokens[2:])
        self.sizes_parameter = self.sizes_parameter or any(it.lower == ".sizeof" and name.text in self.parameters for it, _, name in sized)
        self._note(tokens)

    def _note(self, tokens: Sequence[Token]) -> None:
        """Notes the labels, local names and scopes of a line."""
        statement = statement_of(tokens, lambda _: False)
        if statement.label is not None:
            self.labels.append(statement.label.text)
        if statement.head == ".local":
            self.locals |= {it.text for it in statement.rest}
        elif statement.head == ".proc" and statement.rest:
            self.labels.append(statement.rest[0].text)
        self.repeats += (statement.head in words.REPEAT_BEGINS) - (statement.head in words.REPEAT_ENDS)
        self.leaves_repeat = self.leaves_repeat or self.repeats > 0 and statement.head in words.MACRO_EXITS
        self.depth += (statement.head in words.SCOPE_BEGINS) - (statement.head in words.SCOPE_ENDS)
        self.has_nested_scopes = self.has_nested_scopes or not 0 <= self.depth <= 1

    @property
    def has_cheap_constant(self) -> bool:
        """Returns whether a line gives a cheap name a value."""
        return any(_is_cheap_constant(it) for it in self.lines) if self.cheap else False


def _is_cheap_constant(text: str) -> bool:
    tokens = line_of(text).tokens
    return len(tokens) > 1 and tokens[0].kind is Kind.CHEAP and tokens[1].text in ("=", ":=")


def hard_macros(macros: Dict[str, Macro], also: FrozenSet[str], spread: Set[str]) -> FrozenSet[str]:
    """Returns the macros that must be expanded, because of their own lines or of a macro that they call. `spread` are those whose
    lines have several sizes."""
    found = {name for name, it in macros.items() if _is_hard(it) or it.names & also}
    found |= spread & macros.keys()
    while True:
        more = {name for name, it in macros.items() if name not in found and not it.names.isdisjoint(found)}
        if not more:
            return frozenset(found)
        found |= more


def _is_hard(macro: Macro) -> bool:
    """Returns whether a macro's own lines have it expanded. A scope that it opens and closes may stay."""
    if macro.directives & HARD or macro.has_cheap_constant or macro.leaves_repeat or macro.sizes_parameter or macro.names_file:
        return True
    if ".include" in macro.directives and late([".macro m", *macro.lines, ".endmacro"]):
        return True
    if not macro.directives & SCOPES:
        return False
    return macro.has_nested_scopes or macro.depth != 0 or bool(macro.directives & (words.LISTS | {".ifdef", ".ifndef", ".defined", ".def"}))


def end_of_repeat(lines: Sequence[Logical], at: int) -> int:
    """Returns the line that ends a repeat whose lines begin here."""
    length = block_length((statement_in(it.text).head for it in lines[at:]), words.REPEAT_BEGINS, words.REPEAT_ENDS)
    return len(lines) if length is None else at + length
