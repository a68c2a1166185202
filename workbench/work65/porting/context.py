"""The open blocks, and the symbols known, at a line of a module."""
from dataclasses import dataclass, field
from typing import Dict, List, Optional, Set, Tuple

from work65.frontend.segments import Segments
from work65.frontend.tokens import Token
from work65.porting.characters import Charmap
from work65.porting.expansion import Macro


@dataclass
class RewrittenLine:
    """A line of a file by its number, its replacement, and lines to insert before that."""

    number: int
    lines: List[str]
    is_dead: bool = False
    before: List[str] = field(default_factory=list)


@dataclass
class Define:
    """A `.define`: its parameters, its value as tokens of a text, and whether it became a constant."""

    parameters: Optional[List[str]]
    text: str
    tokens: Tuple[Token, ...]
    is_constant: bool = False
    is_ambiguous: bool = False


@dataclass
class OpenScope:
    """An open scope: its name, its first line, the constant with its size, the names used in it, and lines to insert after
    its end."""

    name: str
    word: str
    row: RewrittenLine
    path: str
    segment: str
    size: str = ""
    used: Set[str] = field(default_factory=set)
    behind: List[str] = field(default_factory=list)


@dataclass
class Structure:
    """An open .struct, .union or .enum: its name, the offset of the next member, and its size so far: for a
    union that of its largest member, for a structure the sum of all."""

    word: str
    name: str
    offset: str = "0"
    value: Optional[int] = 0
    base: str = "0"
    base_value: Optional[int] = 0
    largest: Optional[int] = 0
    whole: Optional[int] = 0
    members: Dict[str, Optional[int]] = field(default_factory=dict)
    depth: int = 0
    member: str = ""


@dataclass
class OpenCondition:
    """An open condition: how many .endif of bin65 end it, whether its lines are assembled, and whether those of an .else are
    (None where it isn't known); of an .ifndef, the name that it asks for."""

    ends: int = 1
    is_live: Optional[bool] = None
    is_else_live: Optional[bool] = None
    guarded: str = ""


@dataclass
class Context:
    """All open blocks and known symbols."""

    charmap: Charmap
    features: Set[str] = field(default_factory=set)
    size_name: str = "size"
    saved_charmaps: List[Charmap] = field(default_factory=list)
    defines: Dict[str, Define] = field(default_factory=dict)
    scopes: List[OpenScope] = field(default_factory=list)
    structures: List[Structure] = field(default_factory=list)
    blocks: List[OpenCondition] = field(default_factory=list)
    constants: Dict[Tuple[str, ...], Optional[int]] = field(default_factory=dict)
    sizes: Dict[str, Optional[int]] = field(default_factory=dict)
    labels: Dict[Tuple[str, ...], str] = field(default_factory=dict)
    cheap: Set[str] = field(default_factory=set)
    cheap_before: Set[str] = field(default_factory=set)
    cheap_used: Set[str] = field(default_factory=set)
    cheap_constants: Dict[str, str] = field(default_factory=dict)
    region: str = ""
    part: int = 0
    hoisted: Dict[Tuple[str, ...], str] = field(default_factory=dict)
    uncertain: Set[Tuple[str, ...]] = field(default_factory=set)
    variables: Dict[Tuple[str, ...], str] = field(default_factory=dict)
    versions: Dict[str, int] = field(default_factory=dict)
    changing: Set[str] = field(default_factory=set)
    seen: Set[str] = field(default_factory=set)
    macro: Optional[str] = None
    macros: Dict[str, Macro] = field(default_factory=dict)
    parameters: List[str] = field(default_factory=list)
    locals: Set[str] = field(default_factory=set)
    repeats: List[str] = field(default_factory=list)
    segments: Segments = field(default_factory=Segments)
    processor: str = "6502"
    place: Optional[int] = None

    @property
    def path(self) -> Tuple[str, ...]:
        """The names of the open scopes."""
        return tuple(it.name for it in self.scopes)

    @property
    def segment(self) -> str:
        """The open segment."""
        return self.segments.current

    @property
    def is_plain(self) -> bool:
        """Returns whether no scope, macro or repeat is open."""
        return not (self.scopes or self.macro or self.repeats)

    @property
    def is_dead(self) -> bool:
        """Returns whether the lines here are left out for sure."""
        return any(it.is_live is False for it in self.blocks)

    def certain(self, name: str) -> Optional[int]:
        """Returns the value of a constant that has this value in every assembly."""
        parts = tuple(it for it in name.split("::") if it)
        path = () if name.startswith("::") else self.path
        for depth in range(len(path), -1, -1):
            if path[:depth] + parts in self.constants:
                key = path[:depth] + parts
                return None if key in self.uncertain else self.constants[key]
        return None

    def value(self, name: str) -> Optional[int]:
        """Returns the value of a constant by its name, from the innermost scope outward."""
        parts = tuple(name.split("::"))
        if parts[0] == "":
            return self.constants.get(parts[1:])
        path = self.path
        for depth in range(len(path), -1, -1):
            if path[:depth] + parts in self.constants:
                return self.constants[path[:depth] + parts]
        return None
