"""Random modules that use each other's names: for differences.py."""
from typing import List

from random_expressions import GIVEN, Expressions, Scope

READING = ("lda", "adc", "cmp", "sbc", "and", "ora", "eor")
WRITING = ("sta", "inc", "dec", "asl", "lsr", "rol", "ror")
BRANCHES = ("bne", "beq", "bcc", "bcs", "bpl", "bmi", "bvc", "bvs")
ALONE = ("nop", "clc", "sec", "tax", "tay", "dex", "iny", "pha", "pla", "rol a", "asl", "rts", "sei")
SHADOWED = ("n1", "n2", "n3")
# The file that both modules include: a constant, recursive macros, and macros with operands as arguments.
INCLUDED = """SHARED = 3
.macro store value, where, more
 lda value
 sta where
.if .paramcount > 2
 .byte more
 .exitmacro
.endif
 nop
.endmacro
.macro count from
.if from > 0
 .byte from
 count from - 1
.endif
.endmacro
.macro twice what
 .local again
.repeat 2, k
 what
 .byte k + SHARED
.endrepeat
again: bne again
.endmacro
"""


class Module(Expressions):
    """Writes one module."""

    # Lines.

    def instruction(self) -> None:
        """Writes an instruction."""
        form = self.chance.randrange(12)
        short = [it for it in self.short if not self.is_in_doubt(it)]
        if form < 4:
            self.write(f"\t{self.pick(READING)} {self.operand()}")
        elif form < 6:
            self.write(f"\t{self.pick(WRITING)} {self.place()}")
        elif form == 6:
            self.write(f"\tjsr {self.address()}", f"\tjmp ({self.address()})")
        elif form == 7 and short:
            self.write(f"\tlda ({self.use(self.pick(short))}),y", f"\tsta ({self.use(self.pick(short))},x)")
        elif form == 8:
            self.write(f"\tldx {self.operand()}".replace(",x", ",y"))
        elif form == 9:
            self.write(f"\t{self.pick(BRANCHES)} :+", f"\t{self.pick(ALONE)}", ":\tnop", f"\t{self.pick(BRANCHES)} :-")
        else:
            self.write(f"\t{self.pick(ALONE)}")

    def data(self) -> None:
        """Writes data."""
        form = self.chance.randrange(12)
        if form < 2:
            self.write(f"\t.byte {self.byte()}, {self.byte()}, \"ab\"")
        elif form == 9:
            self.write(f"\t.byte <({self.loose()}), !({self.loose()})", f"\t.word ({self.loose()}) & $FFFF")
        elif form == 10:
            self.write(f'\t.incbin "data.bin", {self.chance.randrange(4)}, {self.chance.randrange(5)}', '\t.incbin "data.bin", 6')
        elif form == 11:
            names = [self.use(self.pick(self.places())) for _ in range(2)]
            self.write(f"\t.byte <({names[0]} - {names[1]}), {names[0]} > {names[1]}", f"\t.dword ({names[0]} * 3 + {names[1]}) & $FFFFFF")
        elif form == 2:
            self.write(f"\t.word {self.datum()}, {self.datum()}")
        elif form == 3:
            self.write(f"\t.addr {self.address()}", f"\t.dbyt <({self.address()})")
        elif form == 4:
            self.write(f"\t.dword ({self.datum()}) & $FFFFFF")
        elif form == 5:
            self.write(f"\t.res {self.small(5, True)[0]}{self.pick(['', f', {self.small(255, True)[0]}'])}")
        elif form == 6:
            self.write(f"\t.align {self.pick(['1', '2', '4', '8'])}{self.pick(['', ', $EA'])}")
        elif form == 7:
            self.write('\t.asciiz "text"')
        else:
            self.write("\t.word *", f"\t.byte <(* - {self.chance.randrange(4)})")

    def define(self) -> None:
        """Writes the definition of a constant or a label."""
        if self.chance.randrange(3) == 0:
            name, (text, value) = self.new("c"), self.constant()
            self.write(f"{name} {self.pick(['=', ':='])} {text}")
            self.scopes[-1].constants[name] = value
            return
        if self.chance.randrange(5) == 0 and not self.counters:
            name, base = self.new("d"), self.use(self.pick(self.places()))
            self.write(f"{name} = {base} {self.pick(['+', '-'])} {self.chance.randrange(9)}", f"\t.addr {name}")
            self.scopes[-1].labels.append(name)
            return
        free = [it for it in SHADOWED if it not in self.scopes[-1].labels]
        name = self.pick(free) if free and self.chance.randrange(3) == 0 else self.new("l")
        self.write(f"{name}:")
        self.scopes[-1].labels.append(name)
        if self.chance.randrange(2):
            self.write(f"\t{self.pick(BRANCHES)} @c", "@c:\tnop", f"\t{self.pick(BRANCHES)} {name}")

    def line(self) -> None:
        """Writes a line or a few."""
        self.chance.choice((self.instruction, self.instruction, self.instruction, self.data, self.define))()

    def block(self, depth: int) -> None:
        """Writes lines and nested blocks."""
        for _ in range(self.chance.randrange(1, 5)):
            if depth < 3 and self.chance.randrange(3) == 0:
                self.chance.choice((self.scope, self.repeat, self.condition, self.call, self.elsewhere))(depth + 1)
            else:
                self.line()

    def scope(self, depth: int) -> None:
        """Writes a scope."""
        if self.counters:
            return
        kind, name = self.pick(["scope", "proc"]), self.new("s")
        self.write(f".{kind} {name}")
        self.scopes.append(Scope(name))
        self.block(depth)
        closed = self.scopes.pop()
        if kind == "proc":
            self.scopes[-1].labels.append(name)
        self.write(f".end{kind}")
        # Names used in this scope count as used in the scopes around it, too: they may be ambiguous in later scopes.
        self.scopes[-1].used += closed.used
        if len(self.scopes) == 1:
            self.closed += [(f"{name}::{it}", value) for it, value in closed.constants.items()]
            self.later += [f"{name}::{it}" for it in closed.labels if not it.startswith("s")]

    def plain_lines(self, count: int) -> None:
        """Writes lines that define nothing."""
        for _ in range(count):
            self.chance.choice((self.instruction, self.data))()

    def repeat(self, depth: int) -> None:
        """Writes a repeat whose lines use its counter."""
        counter = self.new("i")
        self.write(f".repeat {self.small(3, True)[0]}, {counter}")
        self.counters.append(counter)
        self.plain_lines(self.chance.randrange(1, 3))
        if depth < 3 and self.chance.randrange(3) == 0:
            self.repeat(depth + 1)
        if self.chance.randrange(3) == 0:
            self.write(".scope", f"xx:\t{self.pick(BRANCHES)} xx", f"\t.word xx, {self.use(self.pick(self.places()))}", ".endscope")
        self.write(f"\t.byte {counter} * {self.chance.randrange(9)} + 1, <({counter} - 1)", f"\tlda #{counter}", ".endrepeat")
        self.counters.pop()

    def condition(self, depth: int) -> None:
        """Writes a condition whose branches define nothing."""
        value = self.known_at_once()
        asked = self.pick([f".if {value}", ".ifdef N1", ".ifndef N1", ".ifdef never", ".ifdef N2", f".if {value} > 3"])
        if len(self.scopes) > 1 and "def" in asked:
            asked = asked.replace("def ", "def ::")
        self.write(asked)
        self.plain_lines(self.chance.randrange(1, 3))
        if self.chance.randrange(3) == 0:
            self.write(f".elseif {self.known_at_once()}")
            self.plain_lines(1)
        if self.chance.randrange(2):
            self.write(".else")
            self.plain_lines(self.chance.randrange(1, 3))
        self.write(".endif")

    def call(self, depth: int) -> None:
        """Writes a macro call."""
        if not self.macros or self.chance.randrange(3) == 0:
            self.write(self.pick([
                f"\tstore #{self.byte()}, {self.place()}".replace(",x", ""), f"\tstore {{{self.address()},x}}, {{{self.address()},y}}",
                f"\tstore #<({self.address()}), a:{self.address()}, {{1, {self.byte()}}}", f"\tcount {self.chance.randrange(4)}",
                f"\ttwice {self.pick(ALONE)}", f"\ttwice {{{self.pick(READING)} {self.address()},x}}"]))
            return
        name, count = self.chance.choice(self.macros)
        given = [self.pick([self.byte(), f"<({self.address()})", self.number()[0], "{" + self.byte() + ", 1}", ""]) for _ in range(count)]
        while given and not given[-1]:
            given.pop()
        self.write(f"\t{name} {', '.join(given)}".rstrip())

    def elsewhere(self, depth: int) -> None:
        """Writes lines in another segment."""
        if self.counters:
            return
        segment = self.pick(["RODATA", "DATA", "LATE", "BSS", "ZEROPAGE"])
        self.write(".pushseg", f'.segment "{segment}"')
        if segment in ("BSS", "ZEROPAGE"):
            name = self.new("v")
            self.write(f"{name}:\t.res {self.chance.randrange(1, 4)}")
            if segment == "BSS":
                self.scopes[-1].labels.append(name)
            elif len(self.scopes) == 1:
                self.short.append(name)
        else:
            self.define()
            self.plain_lines(1)
            self.write("\t.byte 0")
        self.write(".popseg")

    def macro(self) -> None:
        """Writes a macro definition."""
        name, count = self.new("m"), self.chance.randrange(4)
        parameters = [f"p{it}" for it in range(count)]
        self.write(f".macro {name} {', '.join(parameters)}".rstrip(), "\t.local q", f"q:\t{self.pick(ALONE)}")
        for it in parameters:
            self.write(f".ifnblank {it}", f"\t.byte {it}", ".else", f"\tbne q", ".endif")
        self.write(f"\t.byte .paramcount", f"\t{self.pick(BRANCHES)} q")
        if self.macros and self.chance.randrange(2):
            self.write(f"\t{self.chance.choice(self.macros)[0]}")
        self.write(".endmacro")
        self.macros.append((name, count))

    # The whole.

    def lists(self) -> None:
        """Writes the imports and exports."""
        shared = self.shared
        for kind, word in ((shared.short, "importzp"), (shared.code, "import"), (shared.room, "import"), (shared.numbers, "import")):
            names = [it for it, module in kind.items() if module != self.module]
            for it in names:
                self.write(f".{self.pick([word, word.replace('import', 'global')])} {it}")
            own = [it for it, module in kind.items() if module == self.module]
            for it in own:
                self.write(f".{self.pick(['export', 'global']) + word.replace('import', '')} {it}")
        self.write(f".import {', '.join(GIVEN)}")

    def exported(self, name: str) -> None:
        """Writes an exported name: a label, or an address that depends on an earlier export."""
        earlier = [it for it in self.shared.code if it < name]
        if earlier and self.chance.randrange(4) == 0:
            self.write(f"{name} = {self.pick(earlier)} + {self.chance.randrange(9)}")
        else:
            self.write(f"{name}:")

    def text(self) -> str:
        """Returns the whole source."""
        self.lists()
        self.write("N1 = 1", '\t.include "both.inc"', *(f"{it}:\tnop" for it in SHADOWED), ".zeropage")
        self.scopes[0].labels += SHADOWED
        for it, module in self.shared.short.items():
            if module == self.module:
                self.write(f"{it}:\t.res {self.chance.randrange(1, 4)}")
        if self.chance.randrange(2):
            name = self.new("e")
            self.write('.segment "EXTZP": zeropage', f"{name}:\t.res 2")
            self.short.append(name)
        self.write(".code")
        for it, module in self.shared.numbers.items():
            if module == self.module:
                text, value = self.small(30000)
                self.write(f"{it} = {text}")
                self.known[it] = value
        for _ in range(self.chance.randrange(3)):
            self.macro()
        late = self.new("w")
        self.later.append(late)
        for it, module in self.shared.code.items():
            if module == self.module:
                self.exported(it)
                self.block(0)
        for _ in range(self.chance.randrange(2, 5)):
            self.block(0)
        self.write(".rodata", "\t.byte 1", ".data", "\t.byte 2", ".bss")
        for it, module in self.shared.room.items():
            if module == self.module:
                self.write(f"{it}:\t.res {self.chance.randrange(1, 9)}")
        self.write(f"\t.assert {self.known_at_once()} = {self.number()[0]} || 1, error", ".zeropage", f"{late}:\t.res 2", ".bss")
        return "\n".join(self.lines + ["\t.res 1"]) + "\n"
