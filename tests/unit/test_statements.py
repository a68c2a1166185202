"""A line as a label and a statement, and a list as its parts."""
import rows
from work65.frontend.statements import accepted_statement, block_length, is_instruction, parts_of

# The label with its colon, if it has one; and the statement.
LINES = {
    "": ("", ""),
    "; only a comment": ("", ""),
    "loop: lda #1": ("loop:", "lda # 1"),
    "loop:": ("loop:", ""),
    "@l: dex": ("@l:", "dex"),
    ": dex": (":", "dex"),
    ":": (":", ""),
    " lda #1": ("", "lda # 1"),
    "nop": ("", "nop"),
    "n = 5": ("", "n = 5"),
    "n := 5": ("", "n := 5"),
    "n .set 5": ("", "n .set 5"),
    ".proc p": ("", ".proc p"),
    "l: .byte 1": ("l:", ".byte 1"),
    "l: n = 5": ("l:", "n = 5"),
    "a: b: nop": ("a:", "b : nop"),
    "lda z:b": ("", "lda z: b"),
    "A: nop": ("A:", "nop"),
    " bne :-": ("", "bne :-"),
    "m 1, 2": ("", "m 1 , 2"),
}
# With the feature of labels without colons a name in the first column is one, where it is neither an instruction nor a macro.
BARE = {
    "loop lda #1": ("loop", "lda # 1"),
    "loop": ("loop", ""),
    " loop": ("", "loop"),
    "loop .byte 1": ("loop", ".byte 1"),
    "lda": ("", "lda"),
    "rts": ("", "rts"),
    "@l dex": ("@l", "dex"),
    "@n = 5": ("", "@n = 5"),
    "m": ("", "m"),
    "m lda": ("", "m lda"),
    "loop m": ("loop", "m"),
    "x = 1": ("", "x = 1"),
}
HEADS = {"l: LDA #1": "lda", " .BYTE 1": ".byte", "": "", "l:": "", "n = 5": "n"}
PARTS = {
    "": [],
    "1": ["1"],
    "1, 2": ["1", "2"],
    ",": ["", ""],
    "1,": ["1", ""],
    "(1,2),3": ["( 1 , 2 )", "3"],
    "{1,2},3": ["{ 1 , 2 }", "3"],
    "{(},{)}": ["{ ( }", "{ ) }"],
    "f(1,(2,3)),4": ["f ( 1 , ( 2 , 3 ) )", "4"],
    '"a,b",c': ['"a,b"', "c"],
    "{1,{2,3}},4": ["{ 1 , { 2 , 3 } }", "4"],
}
# The same where parentheses have no meaning, as in the call of a macro.
CALLS = {"(1,2),3": ["( 1", "2 )", "3"], "{1,2},3": ["{ 1 , 2 }", "3"], "a[1,2]": ["a [ 1", "2 ]"]}
# In a program that bin65 accepts each label has its colon.
ACCEPTED = {"loop lda #1": ("", "loop lda # 1"), "loop: m": ("loop:", "m"), "@l: rts": ("@l:", "rts"), "l?3: nop": ("l?3:", "nop")}
# The heads of the lines after the one that opens a block, and how many lines the block has.
BLOCKS = {".endrep": 0, "nop .endrepeat nop": 1, "nop .repeat .endrep nop .endrep .endrep": 4, "nop": None, "": None, ".repeat .endrep": None}
INSTRUCTIONS = {"lda": True, "brk": True, "stz": True, "lax": True, "rmb0": True, "bbs7": True, "loop": False, "a": False, "ldaa": False}


def shown(found):
    """The label and the statement of a line."""
    label = found.label.text if found.label is not None else ""
    colon = ":" * (found.label is not None and found.has_colon and label != ":")
    return label + colon, rows.plain(found.body)


class Statements(rows.Rows):
    """Statements of lines."""

    def test_lines(self):
        self.rows({**LINES, **BARE}, lambda text: shown(rows.statement(text, "m")))

    def test_accepted(self):
        self.rows(ACCEPTED, lambda text: shown(accepted_statement(text, is_expanded=True)))

    def test_constants(self):
        self.rows({"n = 5": True, "n := 5": True, "n: lda #5": False, "l: n = 5": True, "lda x": False, "": False, "n": False},
                  lambda text: rows.statement(text).is_constant)

    def test_blocks(self):
        self.rows(BLOCKS, lambda heads: block_length(heads.split(), {".repeat"}, {".endrep", ".endrepeat"}))

    def test_heads(self):
        self.rows(HEADS, lambda text: rows.statement(text).head)

    def test_rest(self):
        self.rows({"l: lda #1": "# 1", " rts": "", "": ""}, lambda text: rows.plain(rows.statement(text).rest))

    def test_parts(self):
        self.rows(PARTS, lambda text: [rows.plain(it) for it in parts_of(rows.tokens_of(text))])

    def test_arguments(self):
        self.rows(CALLS, lambda text: [rows.plain(it) for it in parts_of(rows.tokens_of(text), has_parentheses=False)])

    def test_instructions(self):
        self.rows(INSTRUCTIONS, is_instruction)
