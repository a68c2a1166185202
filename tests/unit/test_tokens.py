"""A line as tokens: the longest possible token is read, blanks separate them, a `;` outside strings and characters begins a comment."""
import rows
from work65.frontend.tokens import is_closed, line_of, value_of

PLAIN = {
    "": "",
    " \t ": "",
    "; lda #1": "",
    " lda #$12 ; a comment": "n lda  s #  0 $12",
    "loop: bne loop": "n loop  s :  n bne  n loop",
    "x\t=\t5": "n x  s =  0 5",
    "_a1 B_2": "n _a1  n B_2",
    "a.b": "n a  . .b",
    ".byte.WORD": ". .byte  . .WORD",
    "lda #<label+1": "n lda  s #  s <  n label  s +  0 1",
    "\tjmp (v,x)": "n jmp  s (  n v  s ,  n x  s )",
    "{1,2}": "s {  0 1  s ,  0 2  s }",
}
NUMBERS = {
    "12 $1F %101 0ffh": "0 12  0 $1F  0 %101  0 0ffh",
    "12ab": "0 12ab",
    "1_000": "0 1_000",
    "$": "0 $",
    "$g1": "0 $g1",
    "%102": "0 %102",
    "%": "! %",
    "1+2": "0 1  s +  0 2",
    "$12,x": "0 $12  s ,  n x",
}
TEXTS = {
    "'a'": "' 'a'",
    "'''": "' '''",
    "';'": "' ';'",
    "' '": "' ' '",
    "'\"'": "' '\"'",
    "lda #'A+1": "n lda  s #  ' 'A+1",
    '.byte "a;b" ; c': '. .byte  " "a;b"',
    '"a","b"': '" "a"  s ,  " "b"',
    '""': '" ""',
    '"it\'s"': '" "it\'s"',
    '"a\\"b': '" "a\\"  n b',
    '"open': '" "open',
}
ESCAPED = {'"a\\"b"': '" "a\\"b"', '"a\\\\" b': '" "a\\\\"  n b', '"a\\n"': '" "a\\n"', "'\\'": "' '\\'"}
LABELS = {
    ":": "s :",
    "bne :-": "n bne  : :-",
    "bne :+++": "n bne  : :+++",
    "bne :- ; back": "n bne  : :-",
    "bne :>>": "n bne  : :>>",
    "::a::b": "s ::  n a  s ::  n b",
    "a := 5": "n a  s :=  0 5",
    "a :=5": "n a  s :=  0 5",
    "@loop: dex": "@ @loop  s :  n dex",
    "@1": "@ @1",
    "@": "@ @",
    ":::a": "s ::  s :  n a",
}
# `a:`, `z:` and `f:` are prefixes with the colon right after the letter, but not at the beginning of a line.
PREFIXES = {
    " lda z:b": "n lda  p z:  n b",
    " lda A:b": "n lda  p A:  n b",
    " lda f:b": "n lda  p f:  n b",
    "z: b": "n z  s :  n b",
    "l: z:b": "n l  s :  p z:  n b",
    " lda z :b": "n lda  n z  s :  n b",
    " lda z::n": "n lda  n z  s ::  n n",
    " q z:=5": "n q  n z  s :=  0 5",
    " lda a:+1": "n lda  p a:  s +  0 1",
    " lda a:--1": "n lda  p a:  s -  s -  0 1",
    " lda b:c": "n lda  n b  s :  n c",
    " lda z:<<9": "n lda  p z:  s <<  0 9",
    " lda a:<=1": "n lda  p a:  s <=  0 1",
    " lda z:>b": "n lda  p z:  s >  n b",
    "z:+1": "n z  : :+  0 1",
    "\tF: nop": "n F  s :  n nop",
    "a::b": "n a  s ::  n b",
    "a:=5": "n a  s :=  0 5",
    " lda az:c": "n lda  n az  s :  n c",
}
SIGNS = {
    "1<<2": "0 1  s <<  0 2",
    "1>>=2": "0 1  s >>  s =  0 2",
    "1<>=2": "0 1  s <>  s =  0 2",
    "1<=>2": "0 1  s <=  s >  0 2",
    "a&&&b": "n a  s &&  s &  n b",
    "a|||b": "n a  s ||  s |  n b",
    "+-*/&|^~<>=!()#,{}[]": "s +  s -  s *  s /  s &  s |  s ^  s ~  s <>  s =  s !  s (  s )  s #  s ,  s {  s }  s [  s ]",
    "!!a": "s !  s !  n a",
}
BAD = {".": "! .", "a?b": "n a  ! ?  n b", "\\": "! \\", "\xe9": "! \xe9", "a\r": "n a  ! \r", ".1": "! .  0 1", "a;\xe9": "n a"}
COMMENTS = {"nop": 3, "nop ; x": 4, ";": 0, '.byte ";" ;': 10, "lda #';' ; x;y": 9}
VALUES = {
    "0": 0, "10": 10, "4294967295": 4294967295, "$ff": 255, "$FF": 255, "%101": 5, "0ffh": 255, "10h": 16, "007": 7, "1_000": 1000,
    "12ab": None, "0ab": None, "$": None, "$g": None, "%2": None, "%": None, "": None, "ffh": None, "a": None, "h": None,
}  # fmt: skip
CLOSED = {'"a"': True, '""': True, '"a': False, '"': False, "'a'": True, "'''": True, "'ab": False, "'": False, "''": False}


class Tokens(rows.Rows):
    """The tokens of lines."""

    def test_tokens(self):
        for table in (PLAIN, NUMBERS, TEXTS, LABELS, PREFIXES, SIGNS, BAD):
            self.rows(table, lambda text: rows.told(rows.tokens_of(text)))

    def test_escapes(self):
        self.rows(ESCAPED, lambda text: rows.told(rows.tokens_of(text, True)))

    def test_comments(self):
        self.rows(COMMENTS, lambda text: line_of(text).comment)

    def test_places(self):
        """Each token is where its text is, and its text in small letters is with it."""
        for table in (PLAIN, NUMBERS, TEXTS, LABELS, PREFIXES, SIGNS, BAD):
            self.rows(dict.fromkeys(table, True), are_in_place)

    def test_values(self):
        self.rows(VALUES, value_of)

    def test_closed(self):
        self.rows(CLOSED, lambda text: is_closed(rows.tokens_of(text)[0]))


def are_in_place(text):
    """Whether the tokens of a line are the pieces of its text, in order, with nothing but blanks between them."""
    at = 0
    for it in rows.tokens_of(text):
        if text[at : it.start].strip(" \t") or text[it.start : it.end] != it.text or it.lower != it.text.lower():
            return False
        at = it.end
    return not text[at : line_of(text).comment].strip(" \t")
