"""Macros and repeats: arguments, the replacement of parameters, and the lines of a call, by docs/LANGUAGE.md."""
import rows
from work65.frontend.expression import value
from work65.frontend.macros import arguments_of, given_by, substituted
from work65.porting.expander import Expander
from work65.porting.expansion import Macro, end_of_repeat, hard_macros
from work65.porting.logical import Logical

# Commas within braces part nothing, braces round a whole argument are dropped, and an argument may be empty.
ARGUMENTS = {
    "m": [],
    "m 1": ["1"],
    "m 1, lda #2": ["1", "lda #2"],
    "m {1,2}": ["1,2"],
    "m {1,2}, 3": ["1,2", "3"],
    "m {}": [""],
    "m ,2": ["", "2"],
    "m 1,": ["1", ""],
    "m {{1}}": ["{1}"],
    "m (1,x), 2": ["(1", "x)", "2"],
    'm "a,b"': ['"a,b"'],
    "m <(a1+1) , y": ["<(a1+1)", "y"],
    "m {1}{2}": ["{1}{2}"],
    "m {1},{2,3}": ["1", "2,3"],
    "m 1 {2,3} 4": ["1 {2,3} 4"],
}
# The arguments of a call of a macro with the parameters a1, b1 and c1, and the replacement of each name.
PARAMETERS = {
    (): {"a1": "", "b1": "", "c1": "", ".paramcount": "0"},
    ("1",): {"a1": "1", "b1": "", "c1": "", ".paramcount": "1"},
    ("", "x,y"): {"a1": "", "b1": "x,y", "c1": "", ".paramcount": "2"},
    ("1", "2", "3"): {"a1": "1", "b1": "2", "c1": "3", ".paramcount": "3"},
}
GIVEN = {"n": "5", "v": "a1, b1", "empty": "", ".paramcount": "2"}
SUBSTITUTED = {
    " lda #n": " lda #5",
    " lda #n+n": " lda #5+5",
    " lda nn": " lda nn",
    " .byte v": " .byte a1, b1",
    ' .byte "n"': ' .byte "n"',
    " lda s::n ; n": " lda s::5 ; n",
    " lda @n": " lda @n",
    " .if .paramcount": " .if 2",
    "empty: nop": ": nop",
    " lda #'n'": " lda #'n'",
    "N = 1": "N = 1",
    " .if .PARAMCOUNT = n": " .if 2 = 5",
    " .byte n;n": " .byte 5;n",
    " lda z:n": " lda z:5",
}
# Lines of a call, in which a local name has the number of the call.
EXPANDED = {" bne l?3": " bne far", " bne l?31": " bne l?31", " bne l": " bne l", "l?3: nop": "far: nop"}
REPEATS = {"nop|.endrepeat|nop": 1, ".repeat 2|nop|.endrep|.endrepeat": 3, "nop": 1, "l: .repeat 2|.endrepeat|.endrepeat": 2}
MACROS = {
    "plain": ("value", "lda #value|sta $10"),
    "twice": ("what", "plain what|plain what+1"),
    "one": ("p, q", ".ifblank q|lda p|.else|lda p+q|.endif"),
    "loop": ("count", ".local top|ldx #count|top: dex|bne top"),
    "many": ("n", ".repeat n, i|.byte i*2|.endrepeat"),
    "stops": ("n", "nop|.if n|.exitmacro|.endif|inx"),
    "inner": ("n", ".repeat 2|stops n|.endrepeat|iny"),
    "leaves": ("", ".repeat 2|inx|.exitmacro|.endrepeat|iny"),
    "counts": ("p1, p2, p3", ".byte .paramcount"),
    "labelled": ("", "l: plain 1"),
    "choice": ("n", ".if n = 1|inx|.elseif n = 2|iny|.else|dex|.endif"),
}
# Calls and their lines. A local name has the number of its call; a repeat that is open at an `.exitmacro` continues to
# its end, as in cc65.
CALLS = {
    "plain 5": "lda #5|sta $10",
    "plain {5, 6}": "lda #5, 6|sta $10",
    "plain": "lda #|sta $10",
    "twice 1": "lda #1|sta $10|lda #1+1|sta $10",
    "one $20": "lda $20",
    "one $20, 3": "lda $20+3",
    "loop 4": "ldx #4|top_u_1: dex|bne top_u_1",
    "many 3": ".repeat 3, i|.byte i*2|.endrepeat",
    "many 0": ".repeat 0, i|.byte i*2|.endrepeat",
    "stops 0": "nop|inx",
    "stops 1": "nop",
    "inner 1": "nop|nop|iny",
    "inner 0": "nop|inx|nop|inx|iny",
    "leaves": "inx|inx",
    "counts": ".byte 0",
    "counts 1, 2": ".byte 2",
    "counts {}": ".byte 1",
    "labelled": "l:|lda #1|sta $10",
    "choice 1": "inx",
    "choice 2": "iny",
    "choice 3": "dex",
}
# Macros by their lines, and those that have to be written out: for what they have, or for what they call.
HARD = {
    "a1: nop": "",
    "a1: .byte .strlen(\"x\")": "a1",
    "a1: b1; b1: .byte .left(1, {1})": "a1 b1",
    "a1: nop; b1: n .set 5; c1: b1; d1: c1": "b1 c1 d1",
    "a1: .scope s|nop|.endscope": "",
    "a1: .scope s|nop": "a1",
    "a1: .proc p|.proc q|.endproc|.endproc": "a1",
    "a1: @x = 5": "a1",
    "a1: .repeat 2|.exitmacro|.endrepeat": "a1",
}


class Host:
    """Keeps the lines that come out."""

    has_escapes, macro = False, None

    def __init__(self):
        self.lines, self.state, self.context = [], self, self
        self.macros = {name: macro_of(*it) for name, it in MACROS.items()}

    def prepared(self, text):
        return text

    def is_written_out(self, statement):
        return statement.head in MACROS

    def decided(self, text):
        found = value(rows.statement(text).rest, lambda name: None)
        return None if found is None else found != 0

    def counted(self, text):
        return value([it for it in rows.statement(text).rest][:1], lambda name: None)

    def emit(self, text, following):
        self.lines.append(text)


def macro_of(parameters, lines):
    """A macro of these lines."""
    found = Macro([it for it in parameters.split(", ") if it])
    for it in lines.split("|"):
        found.add(it, False)
    return found


def expanded(text):
    """The lines of a call."""
    host = Host()
    expander = Expander(host, host, host.emit, "u")
    expander.call(text, rows.statement(text, *MACROS))
    expander.run()
    return "|".join(host.lines)


def hard(text):
    """The macros of a text that have to be written out, in order."""
    parts = (it.partition(": ") for it in text.split("; "))
    return " ".join(sorted(hard_macros({name: macro_of("", lines) for name, _, lines in parts}, frozenset(), set())))


class Expansion(rows.Rows):
    """Calls and repeats."""

    def test_arguments(self):
        self.rows(ARGUMENTS, lambda text: arguments_of(text, rows.statement(text, "m").rest))

    def test_substituted(self):
        self.rows(SUBSTITUTED, lambda text: substituted(text, GIVEN, False))

    def test_parameters(self):
        self.rows(PARAMETERS, lambda given: given_by(["a1", "b1", "c1"], given))

    def test_expanded(self):
        self.rows(EXPANDED, lambda text: substituted(text, {"l?3": "far"}, is_expanded=True))

    def test_repeats(self):
        self.rows(REPEATS, lambda text: end_of_repeat([Logical(0, it) for it in text.split("|")], 0))

    def test_calls(self):
        self.rows(CALLS, expanded)

    def test_hard(self):
        self.rows(HARD, hard)
