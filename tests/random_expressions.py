"""Random names, expressions and operands that ca65 and bin65 accept with the same meaning: for random_modules.py.

Left out is what docs/MIGRATING.md lists under "What is accepted but gives other bytes". Values of constants are computed here, so
that they are in range where they are used."""
import random
from dataclasses import dataclass, field
from typing import Callable, Dict, List, Sequence, Tuple

WORD = 1 << 31
GIVEN = (
    "top", "soft", "__CODE_SIZE__", "__ROM_START__", "__RAM_SIZE__", "__DATA_LOAD__", "__DATA_RUN__", "__BSS_RUN__", "__ZP_LAST__",
    "__ROM_LAST__",
)
@dataclass
class Scope:
    """An open scope: its name, what it defines, and the names that its lines have used."""

    name: str
    labels: List[str] = field(default_factory=list)
    constants: Dict[str, int] = field(default_factory=dict)
    used: List[str] = field(default_factory=list)


@dataclass
class Shared:
    """The exported names by kind, with the module that defines each."""

    code: Dict[str, int] = field(default_factory=dict)
    short: Dict[str, int] = field(default_factory=dict)
    room: Dict[str, int] = field(default_factory=dict)
    numbers: Dict[str, int] = field(default_factory=dict)

    def of(self, module: int) -> List[str]:
        """Returns the names that a module defines."""
        kinds = (self.code, self.short, self.room, self.numbers)
        return [name for kind in kinds for name, number in kind.items() if number == module]


class Expressions:
    """Writes names and expressions of one module."""

    def __init__(self, chance: random.Random, number: int, shared: Shared) -> None:
        self.chance, self.module, self.shared = chance, number, shared
        self.lines: List[str] = []
        self.scopes = [Scope("")]
        self.counted = 0
        self.short = [it for it, module in shared.short.items()]
        self.macros: List[Tuple[str, int]] = []
        self.counters: List[str] = []
        self.later: List[str] = []
        self.known: Dict[str, int] = {}
        self.closed: List[Tuple[str, int]] = []
        self.is_strict = False

    # Names.

    def new(self, begin: str) -> str:
        """Returns a new name."""
        self.counted += 1
        return f"{begin}{self.module}_{self.counted}"

    def pick(self, texts: Sequence[str]) -> str:
        """Returns one of some texts."""
        return self.chance.choice(texts)

    def is_in_doubt(self, name: str) -> bool:
        """Returns whether a scope around the innermost one has used a name: ca65 then doesn't know its value inside."""
        return any(name in it.used for it in self.scopes[1:-1])

    def use(self, name: str) -> str:
        """Records that the innermost scope uses a name."""
        self.scopes[-1].used.append(name)
        return name

    def write(self, *lines: str) -> None:
        """Adds lines."""
        self.lines += lines

    # Expressions. Each has its value where that is known.

    def number(self, most: int = 255) -> Tuple[str, int]:
        """Returns a number in one of its spellings, and its value."""
        value = self.chance.choice((self.chance.randrange(10), self.chance.randrange(most + 1)))
        forms = [str(value), f"${value:X}", f"%{value:b}", f"0{value:X}h" if value > 9 else str(value)]
        return self.pick([f"'{chr(value)}'" if 64 < value < 91 else str(value), *forms]), value

    def constants(self) -> Dict[str, int]:
        """Returns the constants that may be used here. Where ca65 needs the value at the line, it knows names of the innermost scope and
        names after `::`."""
        if self.is_strict and len(self.scopes) > 1:
            return {**{f"::{name}": value for name, value in self.scopes[0].constants.items()}, **self.scopes[-1].constants}
        return {name: value for it in self.scopes for name, value in it.constants.items() if not self.is_in_doubt(name)}

    def constant(self, depth: int = 0) -> Tuple[str, int]:
        """Returns an expression whose value is known at its line, and the value."""
        while True:
            text, value = self.constant_of(depth)
            if -WORD < value < WORD:
                return text, value

    def constant_of(self, depth: int) -> Tuple[str, int]:
        """Returns such an expression, which may be too large."""
        known = self.constants()
        kind = self.chance.randrange(10)
        if kind < 3 and known:
            name = self.pick(sorted(known))
            return self.use(name), known[name]
        if kind == 3 and self.closed and not (self.is_strict and len(self.scopes) > 1):
            return self.chance.choice(self.closed)
        if kind < 6 or depth > 3:
            return self.number(self.chance.choice((15, 255, 4000)))
        return self.operation(self.constant(depth + 1), self.constant(depth + 1))

    def operation(self, one: Tuple[str, int], other: Tuple[str, int]) -> Tuple[str, int]:
        """Joins two expressions, or puts a sign before one."""
        (a, x), (b, y) = one, other
        joined: List[Callable[[], Tuple[str, int]]] = [
            lambda: (f"({a} + {b})", x + y), lambda: (f"({a} - {b})", x - y), lambda: (f"({a} * {b})", x * y),
            lambda: (f"({a} | {b})", x | y), lambda: (f"({a} & {b})", x & y), lambda: (f"({a} ^ {b})", x ^ y),
            lambda: (f"(-({a}))", -x), lambda: (f"(~({a}))", ~x), lambda: (f"<({a})", x & 255), lambda: (f">({a})", x >> 8 & 255),
            lambda: (f"^({a})", x >> 16 & 255), lambda: (f".lobyte({a})", x & 255), lambda: (f"({a} = {b})", int(x == y)),
            lambda: (f"({a} <> {b})", int(x != y)), lambda: (f"({a} < {b})", int(x < y)), lambda: (f"({a} >= {b})", int(x >= y)),
            lambda: (f"({a} && {b})", int(bool(x) and bool(y))), lambda: (f"(!({a}))", int(not x)),
            lambda: (f"({a} || {b})", int(bool(x) or bool(y))), lambda: (f"({a} .xor {b})", int(bool(x) != bool(y))),
            lambda: (f"({a} .bitor {b})", x | y), lambda: (f"({a} .bitand {b})", x & y), lambda: (f"({a} .bitxor {b})", x ^ y),
            lambda: (f"({a} .and {b})", int(bool(x) and bool(y))), lambda: (f"(.not {a})", int(not x)),
            lambda: (f".hibyte({a})", x >> 8 & 255), lambda: (f".bankbyte({a})", x >> 16 & 255), lambda: (f"(.bitnot({a}))", ~x),
        ]
        if y > 0 and x >= 0:
            joined += [lambda: (f"({a} / {b})", x // y), lambda: (f"({a} .mod {b})", x % y)]
        if 0 <= y < 12:
            joined += [lambda: (f"({a} << {b})", x << y)] + ([lambda: (f"({a} >> {b})", x >> y)] if x >= 0 else [])
        return self.chance.choice(joined)()

    def loose(self) -> str:
        """Returns an expression without parentheses. Its value isn't computed."""
        text = self.pick(["", "", "-", "~", "!", "<", ">"]) + self.number()[0]
        for _ in range(self.chance.randrange(1, 5)):
            sign = self.pick("+ - * & | ^ = <> < > <= >= && || .mod .xor .bitor .bitand".split())
            shown = self.number(99)[0] if sign != ".mod" else str(self.chance.randrange(1, 9))
            text += f" {sign} {self.pick(['', '', '-', '<', '~']) if sign != '.mod' else ''}{shown}"
        return text + self.pick(["", "", " << 3", " .shl 2"])

    def byte(self) -> str:
        """Returns a value of one byte."""
        if self.chance.randrange(8) == 0:
            return f"<({self.loose()})"
        text, value = self.constant()
        return text if 0 <= value < 256 else f"<({text})"

    def known_at_once(self) -> str:
        """Returns a value that ca65 needs at the line."""
        self.is_strict = True
        text = self.constant()[0]
        self.is_strict = False
        return text

    def small(self, most: int, is_strict: bool = False) -> Tuple[str, int]:
        """Returns a value from 0 to `most`."""
        self.is_strict = is_strict
        text, value = self.constant()
        self.is_strict = False
        return (text, value) if 0 <= value <= most else (f"(({text}) & {most})", value & most)

    def places(self) -> List[str]:
        """Returns the two-byte names that may be used here: labels of open scopes, of later lines, and of the other module."""
        found = [name for it in self.scopes for name in it.labels]
        return [*found, *self.shared.code, *self.shared.room, *self.later, *GIVEN]

    def address(self) -> str:
        """Returns an address of two bytes."""
        name = self.use(self.pick(self.places()))
        form = self.chance.randrange(6)
        if form < 3:
            return name
        if form == 3:
            return f"{name} + {self.small(100)[0]}"
        return f"{name} - {self.small(9)[0]}" if form == 4 else f"{self.chance.randrange(9)} + {name}"

    def difference(self) -> str:
        """Returns a difference of two addresses."""
        names = [it for it in self.places() if it not in GIVEN]
        return f"{self.use(self.pick(names))} - {self.use(self.pick(names))}" if names else "0"

    def datum(self) -> str:
        """Returns a value of two bytes."""
        form = self.chance.randrange(6)
        if form < 3:
            return self.address()
        if form == 3:
            return f"({self.difference()}) & $FFFF"
        return f"({self.constant()[0]}) & $FFFF" if form == 4 else f"{self.pick('<>^')}({self.address()})"

    def operand(self) -> str:
        """Returns the operand of an instruction that reads."""
        form = self.chance.randrange(9)
        if form == 0:
            return f"#{self.byte()}"
        if form == 1:
            return f"#{self.pick(['<', '>', '^', '.hibyte'])}({self.address()})"
        if form == 2:
            return f"#<({self.difference()})"
        return self.place()

    def place(self) -> str:
        """Returns the operand of an instruction that reads or writes."""
        form, index = self.chance.randrange(10), self.pick(["", "", ",x"])
        short = [it for it in self.short if not self.is_in_doubt(it)]
        if form < 3 and short:
            name = self.use(self.pick(short))
            more = f"{name} + {self.chance.randrange(3)}{index}"
            return self.pick([name, f"{name}{index}", more, f"z:{name}{index}", f"a:{name}{index}"])
        if form == 3:
            text, _ = self.small(255, True)
            return self.pick([f"0 + {text}{index}", f"a:0 + {text}{index}", f"z:0 + {text}{index}", f"+{text}"])
        if form == 4:
            return f"${self.chance.randrange(0x100, 0xF000):X}{index}"
        return self.pick([f"{self.address()}{index}", f"{self.address()}{index}", f"a:{self.address()}{index}"])
