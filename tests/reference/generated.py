"""Random programs: modules that use each other's names, and a script."""

import random
import re

# Words in brackets are replaced by one of these texts; by the first one if the replacements nest too deeply.
# Any [tree] has a value.
GRAMMAR = {
    "tree": ["[operand]", "[operand]", "[sign]([tree])", "([tree]) [operator] ([tree])", "([tree]) [operator] ([tree])",
             "[operand] + [digit]", "([tree] / (1 | ([tree])))", "([tree] .mod (1 | ([tree])))",
             "([tree] << (([tree]) & 63))", "(([tree]) >> (([tree]) & 63))", "(!([tree]))"],
    "operand": ["[label]", "[label]", "[own]", "[other]", "[other]", "*", "[number]", "'A'"],
    "sign": ["-", "~", "<", ">", "^", "+", ".lobyte "],
    "operator": "+ - + - * & ^ | = <> < > <= >= && .xor ||".split(),
    "digit": list("0123456789"),
    "number": ["[digit]", "$[digit][digit]", "$[digit]F[digit][digit]", "%1011", "65[digit][digit][digit]",
               "$FFFFFFFF"],
    "fill": ["", "", ", 1[digit]", ", 23[digit]"],
    "byte": ["<[operand]", "<[operand]", ">([tree])", "2[digit]", "([tree]) & 255", "!([tree])"],
    "mnemonic": ["lda", "sta", "inc", "ldx", "jsr", "asl", "cmp"],
    "index": ["", "", ",x"],
    "line": [
        "nop", ".byte [byte], [byte]", '.byte "ab", [byte]', ".word ([tree]) & $FFFF", ".word [label]",
        ".dbyt <[operand]", ".dword ([tree]) & $FFFFFFFF", "lda #[byte]", "[mnemonic] 0 + ([tree]) & $FFF",
        "[mnemonic] [operand] & $FFFF", "lda [label][index]", "lda a:[label][index]", "lda $20[index]",
        "lda (2[digit]),y", "jmp ([label])", "k[count] = [tree]", ".res [digit][fill]", ".res * - * + [digit]",
        ".align 1[fill]", ".align 2[fill]", ".align 4[fill]", ".align 16[fill]",
        ".assert ([tree]) = ([tree]), warning", ".assert (([tree]) & 255) < 256, error",
    ],
    "block": [
        "lda [zp]\nlda ([zp]),y\nldx z:[zp],y\n.byte [zp], <[zp]", "[newlabel]: nop\n@q: .word @q & $FFFF\nbne @q",
        "[newlabel]:\n[line]", "[newlabel]:\n[line]\n[line]", "[newlabel]: [line]\n[line]", '.segment "[segment]"',
        '.segment "[segment]"\n[newlabel]: [line]', "bne :+\n: nop\n.byte <:-, [byte]\n: bcs :-",
        ".pushseg\n.zeropage\n[newlabel]: .res 2\n.popseg", ".pushseg\n.bss\n[newlabel]: .res [digit]\n.popseg",
        "[known]", "[scoped]",
    ],
    "segment": ["CODE", "CODE", "DATA", "RODATA", "BSS", "ZEROPAGE", "EXTRA"],
}
# Of a number: how far it is to a label, which is known at its line.
KNOWN = """d{n}: nop
.align 4
.byte [byte]
.align 8
.res (* - d{n}) & 15, * - d{n}
lda #* - d{n}"""
# A scope or a proc of a number, and how it is used inside and outside.
SCOPED = """.{kind} s{n}
c{n} = [tree]
@r{n}: nop
.word @r{n} & $FFFF, c{n} & $FFFF
bne @r{n}
.end{kind}
.dword s{n}::c{n} & $FFFF"""
MEMORY = """MEMORY {{
    ZP: start = $10, size = $F0, file = "", define = yes;
    RAM: start = $0200, size = $400, file = {ram};
    ROM: start = {start}, size = $600, fill = {fill}, fillval = {byte}, define = yes;
    TOP: start = $C000, size = $200, file = {top};
}}
"""
SEGMENTS = """SEGMENTS {{
    ZEROPAGE: load = ZP, type = zp, optional = yes;
    CODE: load = ROM, type = ro, align = {align}, define = yes;
    DATA: load = ROM, run = RAM, fillval = {other}, align = {align}, align_load = {load}, define = yes, optional = yes;
    RODATA: load = {area}, type = ro, {begin}optional = yes;
    BSS: load = RAM, type = bss, optional = yes;
    EXTRA: load = TOP, offset = {offset}, optional = yes;
    NOBODY: load = ROM, optional = yes, align = 64;
}}
SYMBOLS {{ top: type = export, value = $FFF0; soft: type = weak, value = {soft}; e0: type = weak, value = 5; }}
"""
# Reasons for having no image, most of them at the end of one module.
FAULTS = [
    ('.segment "NOROW"', "nop"),
    (".data", ".res $401"),
    (".forceimport nobody",),
    (".import nobody", ".word nobody"),
    (".import top", ".byte top"),
    (".import top", ".code", "bne top"),
    (".import top", ".word 1 / (top - top)"),
    (".import top", "lda 1 / (top - top)"),
    (".import top", ".export never", "never = 1 << (top - top + 64)"),
    (".import top", ".assert 1 / (top - top), error"),
    (".import top", ".assert top = 5, error"),
    (".export __ROM_SIZE__", "__ROM_SIZE__ = 1"),
    (".export f0", "f0 = 1"),
    (".export f1", ".import f0", "f1 = f0 + 1"),
]
# The text of the second module if the first one has one of the last two.
OTHERS = {".export f0": (".export f0", "f0 = 1"), ".export f1": (".export f0", ".import f1", "f0 = f1")}


class Source:
    """The lines of a module in the making."""

    def __init__(self, chance, number, count, exported):
        self.zero_page = [f"z{i}" for i in range(count)]
        self.own_zero_page = self.zero_page[number]
        self.chance, self.lines, self.labels, self.counted, self.depth = chance, [], ["start"], 0, 0
        self.own = [name for name in exported if exported[name] == number]
        self.others = [name for name in exported if exported[name] != number]
        self.imports = [*self.others, "top", "soft", "__CODE_SIZE__", "__ROM_LAST__", "__DATA_LOAD__"]

    def word(self, name):
        """A text that a word stands for."""
        if name == "label":
            return self.chance.choice(self.labels[-6:])
        if name == "own":
            return self.chance.choice(self.own or self.labels)
        if name == "other":
            return self.chance.choice(self.imports)
        if name == "zp":
            return self.chance.choice(self.zero_page)
        if name in ("count", "newlabel", "scoped", "known"):
            self.counted += 1
        if name == "count":
            return str(self.counted)
        if name == "newlabel":
            self.labels.append(f"l{self.counted}")
            return self.labels[-1]
        if name == "scoped":
            return self.filled(SCOPED.format(kind=self.chance.choice(["scope", "proc"]), n=self.counted))
        if name == "known":
            return self.filled(KNOWN.format(n=self.counted))
        texts = GRAMMAR[name]
        return self.filled(texts[0] if self.depth > 6 else self.chance.choice(texts))

    def filled(self, text):
        self.depth += 1
        found = re.sub(r"\[(\w+)\]", lambda it: self.word(it[1]), text)
        self.depth -= 1
        return found

    def export(self, name):
        """A name that the module exports: a label, or a constant by an earlier export, so that there is no circle."""
        if self.chance.randrange(2):
            return [f"{name}:", self.filled("[line]")]
        earlier = [it for it in [*self.own, *self.others] if int(it[1:]) < int(name[1:])]
        return [f"{name} = {self.chance.choice(earlier or ['7'])} + {self.chance.randrange(9)}"]

    def text(self):
        wanted = [it for it in self.zero_page if it != self.own_zero_page]
        words = [f".import {', '.join(self.imports)}", f".exportzp {self.own_zero_page}"]
        words.append(f".{self.chance.choice(['importzp', 'globalzp'])} {', '.join(wanted)}")
        if self.own:
            words.append(f".{self.chance.choice(['export', 'global', 'exportzp'])} {', '.join(self.own)}")
        lines = [".zeropage", f"{self.own_zero_page}: .res 1", ".code", "start:"]
        for name in self.own:
            lines += [self.filled("[block]"), *self.export(name)]
        lines += [self.filled("[block]") for i in range(self.chance.randrange(3, 9))]
        return words + lines


def script(chance):
    return (MEMORY + SEGMENTS).format(
        ram=chance.choice(['""', '"ram"']), start=chance.choice(["$8000", "$8001", "$9003"]),
        fill=chance.choice(["yes", "no"]),
        byte=chance.randrange(256), top=chance.choice(["%O", '"top"', '""']), align=chance.choice([1, 2, 8]),
        other=chance.randrange(256), load=chance.choice([1, 4, 5]), area=chance.choice(["ROM", "TOP"]),
        begin=chance.choice(["", "", "align = 16, "]), offset=chance.choice(["$100", "$180"]),
        soft=chance.randrange(300),
    )


def random_program(seed):
    """The files, the library's members, the script's name, the output and the inputs of a program."""
    chance = random.Random(seed)
    count = chance.randrange(2, 5)
    exported = {f"e{i}": chance.randrange(count) for i in range(chance.randrange(2, 7))}
    texts = [Source(chance, i, count, exported).text() for i in range(count)]
    if chance.randrange(4) == 0:
        fault = chance.choice(FAULTS)
        texts[0] += fault
        texts[1] += OTHERS.get(fault[0], ())
    files = {f"m{i}.s": "\n".join(lines).encode() + b"\n" for i, lines in enumerate(texts)}
    files["s.cfg"] = script(chance).encode()
    objects = [f"m{i}.o" for i in range(count)]
    alone = count if chance.randrange(3) else chance.randrange(1, count)
    inputs = objects[:alone] + ["l.lib"] * (alone < count)
    return files, objects[alone:], "s.cfg", "image", inputs
