"""Random sources whose macros set, spell, match and count."""

NAMES = ("one", "two", "three", "four")
LETTERS = "ABCXYZabcxyz 019"
OPERANDS = ("#5", "#<table", "$20", "$1234", "table", "table+1", "{$20,x}", "{($20),y}", "#$1234", "x", "a", "limit")


class Source:
    """A source that grows."""

    def __init__(self, chance):
        self.chance = chance
        self.lines = ["limit = 7", "table: nop"]
        self.macros = []
        self.variables = []
        self.labels = 0

    def put(self, *lines):
        self.lines += lines

    def number(self):
        """An expression with a value."""
        pick = self.chance.choice
        parts = [str(self.chance.randint(0, 9)), f"${self.chance.randint(0, 99):02X}", "limit", *self.variables]
        kind = self.chance.randint(0, 5)
        if kind < 3:
            return pick(parts)
        if kind == 3:
            return f"{pick(parts)} {pick('+*')} {pick(parts)}"
        return f"({pick(parts)} {pick('+-')} {pick(parts)}) & $3F"

    def text(self):
        return '"' + "".join(self.chance.choice(LETTERS) for _ in range(self.chance.randint(1, 5))) + '"'

    def label(self):
        self.labels += 1
        return f"l{self.labels}"

    def name(self, stem):
        self.labels += 1
        return f"{stem}{self.labels}"


def variable(it):
    """A variable that changes."""
    if it.variables and it.chance.random() < 0.7:
        name = it.chance.choice(it.variables)
        it.put(f"{name} .set {name} {it.chance.choice('+*')} {it.chance.randint(1, 3)}")
    else:
        name = it.name("v")
        it.put(f"{name} .set {it.number()}")
        it.variables.append(name)


def counter_macro(it):
    """A macro that spells a label by a counter and raises it."""
    counter, name = it.name("count"), it.name("item")
    it.put(f"{counter} .set 0", f".macro {name} text", f'.ident(.sprintf("{name}_%d", {counter})):', " .byte .strlen(text), text",
           f".if {counter} > 0", f' .word .ident(.sprintf("{name}_%d", {counter} - 1)) - .ident(.sprintf("{name}_%d", {counter})) + $100',
           ".endif", f"{counter} .set {counter} + 1", ".endmacro")
    it.macros.append((name, it.text, False))


def match_macro(it):
    """A macro that looks at its argument's tokens."""
    name, pick = it.name("m"), it.chance.choice
    test = pick((".match({{.left(1, {{p}})}}, {{#}})", ".match(.left(1, {{p}}), #)", ".xmatch({{p}}, x)", ".match({{p}}, table)",
                 ".tcount({{p}}) = 1", ".tcount({{p}}) > 2", ".xmatch({{.mid(0, 1, {{p}})}}, {{$20}})", ".match({{p}}, {{#5}})",
                 ".xmatch({{p}}, {{$14 + 12}})")).format()
    second = pick((".blank({{p}})", ".xmatch({{p}}, a)", ".match({{.right(1, {{p}})}}, y)")).format()
    it.put(f".macro {name} p", f".if {test}", " .byte 1, .tcount({p})", f".elseif {second}", " .byte 2", ".else",
           pick((" .byte 3", " .byte <.tcount({.left(2, {p})})", " .byte .strlen(.string(limit))")), ".endif", ".endmacro")
    it.macros.append((name, lambda: it.chance.choice(OPERANDS), True))


def load_macro(it):
    """The manual's way to load a word."""
    name = it.name("ld")
    it.put(f".macro {name} p", ".if (.match(.left(1, {p}), #))", " lda #<(.right(.tcount({p})-1, {p}))",
           " ldx #>(.right(.tcount({p})-1, {p}))", ".else", " lda p", " ldx 1+(p)", ".endif", ".endmacro")
    it.macros.append((name, lambda: it.chance.choice(("#$1234", "#table", "#table+1", "$20", "table", "#limit")), True))


def set_macro(it):
    """A macro that sets a variable of its own, or one that is named by its argument."""
    name = it.name("s")
    if it.chance.random() < 0.5:
        it.put(f".macro {name} n", ".local c", "c .set n", ".if c & 1", " bit $24", "c .set c - 1", ".endif", ".repeat c / 2",
               " nop", ".endrepeat", f" .byte <(c + {it.number()})", ".endmacro")
        it.macros.append((name, it.number, False))
        return
    target = it.name("w")
    it.put(f".macro {name} r, n", "r .set n * n", " .byte <r", ".endmacro", f" {name} {target}, {it.number()}")
    it.variables.append(target)
    it.macros.append((name, lambda: f"{target}, {it.number()}", False))


def recursive_macro(it):
    """A macro that calls itself."""
    name = it.name("r")
    it.put(f".macro {name} n", ".if (n) > 0", f" .byte <((n) * {it.chance.randint(1, 5)})", f" {name} (n) - 1", ".else",
           it.chance.choice((" .byte $FF", ".exitmacro", " nop")), ".endif", ".endmacro")
    it.macros.append((name, lambda: str(it.chance.randint(0, 6)), True))


def repeat_macro(it):
    """A macro with a repeat that spells names, or is left."""
    name = it.name("q")
    inner = it.chance.choice((
        (f'.ident(.sprintf("{name}_%d_%d", seed, i)): .byte i + seed',), (" .byte i * 2", ".if i = 1", ".exitmacro", ".endif"),
        (" .byte .strat(\"hello\", i)",), (" .byte i", "turn .set turn + i", " .byte <turn")))
    it.put("turn .set 1", f".macro {name} seed", ".repeat 3, i", *inner, ".endrepeat", " .byte seed", ".endmacro")
    seeds = iter(range(100))
    it.macros.append((name, lambda: str(next(seeds)), False))


def plain_macro(it):
    """A macro that bin65 takes, with names of its own."""
    name, cheap = it.name("p"), it.chance.choice(("@", ""))
    it.put(f".macro {name} n, t", f".local {cheap}again", " ldx #n", f"{cheap}again: dex", f" bne {cheap}again", ".ifnblank t",
           " .byte t", ".endif", ".endmacro")
    it.macros.append((name, lambda: it.chance.choice((it.number(), f"{it.number()}, {it.text()}")), cheap == "@"))


def scope_macro(it):
    """A macro that opens a scope by its argument's name."""
    name = it.name("o")
    it.put(f".macro {name} n, v", ".scope n", "value = v", "place: lda #value", ".endscope", ".endmacro")
    made = []

    def arguments():
        made.append(it.name("sc"))
        return f"{made[-1]}, {it.chance.randint(0, 99)}"

    it.macros.append((name, arguments, False))
    it.put(f" {name} {arguments()}", f" ldx #{made[-1]}::value", f" jmp {made[-1]}::place")


def define(it):
    """A define, and a use of it."""
    name = it.name("d")
    value = it.chance.choice((it.number(), "1, 2", it.text(), "limit + 1", ".strlen(\"abc\")"))
    kind = it.chance.randint(0, 3)
    if kind == 0:
        it.put(f".define {name} {value}", f" .byte {name}")
    elif kind == 3:
        macro, first = it.name("uses"), it.chance.random() < 0.5
        lines = (f".define {name} {value}", f".macro {macro}", f" .byte {name}", ".endmacro")
        it.put(*(lines if first else (*lines[1:], lines[0])), f" {macro}", f".undefine {name}", f".define {name} {it.number()}", f" .byte {name}")
        it.macros.append((macro, str, True))
    elif kind == 1:
        it.put(f".define {name}(p) <(p) + {it.chance.randint(0, 5)}", f" .byte <({name} {it.number()})")
    else:
        part = it.name("half")
        it.put(f".define {name}(p, q) .ident(.concat(.string(p), .string(q)))", f"{part}lo: nop", f" .word {name} {part}, lo")


def charmap(it):
    """Characters with other codes."""
    it.put(f".charmap {ord(it.chance.choice('ABCabc'))}, {it.chance.randint(1, 255)}", f" .byte {it.text()}")


def scoped(it):
    """A procedure with calls in it, and cheap names around them."""
    it.put(f".proc {it.name('proc')}", "@top: nop")
    for _ in range(it.chance.randint(1, 3)):
        call(it, is_in_scope=True)
    it.put(it.chance.choice((" bne @top", " jmp @end", " nop")), "@end: rts", ".endproc")


def call(it, is_in_scope=False):
    """A call of one of the macros; within a scope of one that needs nothing from outside of it."""
    macros = [one for one in it.macros if one[2] or not is_in_scope]
    if macros:
        name, arguments, _ = it.chance.choice(macros)
        it.put(f" {name} {arguments()}")


def repeat(it):
    """A repeat, with a variable that it changes or with a call."""
    it.put(".repeat 3, i")
    if it.variables and it.chance.random() < 0.5:
        name = it.chance.choice(it.variables)
        it.put(f" .byte <({name} + i)", f"{name} .set {name} + 2")
    else:
        it.put(" .byte i")
        call(it)
    it.put(".endrepeat")


def condition(it):
    """A condition on a variable."""
    name = it.chance.choice(it.variables or ["limit"])
    it.put(f".if {name} {it.chance.choice('<>=')} {it.chance.randint(0, 9)}", " .byte 1")
    call(it)
    it.put(".else", " .byte 2", ".endif")


def read(it):
    """A variable as a value."""
    if it.variables:
        name = it.chance.choice(it.variables)
        it.put(it.chance.choice((f" .byte <{name}", f" lda #<({name} * 2)", f' .byte .sprintf("%d", {name})', f" .word {name} & $FF")))


PARTS = (variable, variable, counter_macro, match_macro, match_macro, load_macro, set_macro, set_macro, recursive_macro, repeat_macro,
         plain_macro, scope_macro, define, charmap, scoped, scoped, repeat, condition, read, read)


def tree(chance):
    """One source, and at times one file that it includes."""
    it = Source(chance)
    for _ in range(chance.randint(3, 9)):
        chance.choice(PARTS)(it)
    head = it.lines
    it.lines = []
    for _ in range(chance.randint(3, 8)):
        chance.choice((call, call, call, scoped, read, variable, condition))(it)
    if chance.random() < 0.3:
        return {"a.s": ' .include "macros.inc"\n .include "calls.inc"\n', "macros.inc": _text(head), "calls.inc": _text(it.lines)}
    return {"a.s": _text([*head, *it.lines])}


def _text(lines):
    return "".join(f"{it}\n" for it in lines)
