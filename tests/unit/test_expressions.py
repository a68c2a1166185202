"""The values of expressions, by the levels of docs/LANGUAGE.md."""
import rows
from work65.frontend.expression import scoped_name, value

NAMES = {"five": 5, "s::deep": 7, "::top": 9, "low": -6}
VALUES = {
    "5": 5, "$10": 16, "%11": 3, "0ah": 10, "'A'": 65, "five": 5, "s::deep": 7, "::top": 9,
    # one level after the other, and from the left within one
    "1+2*3": 7, "(1+2)*3": 9, "7-2-1": 4, "2*3/4": 1, "1+2|4": 7, "6&3+1": 3, "8/2*4": 16, "1<<2+1": 5, "2+3=5": 1, "1<2=1": 1,
    "3-2>0 && 1": 1, "1 || 1 && 0": 1, "0 && 0 || 1": 1, "1 .xor 1": 0, "1 .xor 0": 1,
    "-1": -1, "--1": 1, "-2+3": 1, "~0": -1, "~$FF & $F0F": 0xF00, "<$1234": 0x34, ">$1234": 0x12, "^$123456": 0x12, "<$1234+1": 0x35,
    "<-1": 255, ">-1": 255, "-<$1234": -0x34,
    "!0": 1, "!5": 0, "!!5": 1, "!1=2": 1, "!(1=2)": 1, "!0+1": 0, ".not 0": 1, "(!0)+1": 2,
    # the fraction is dropped, and a remainder has the sign of the dividend
    "7/2": 3, "-7/2": -3, "7/-2": -3, "7 .mod 3": 1, "-7 .mod 3": -1, "7 .mod -3": 1, "low/4": -1,
    "1<<3": 8, "-8>>1": -4, "1 .shl 4": 16, "16 .shr 2": 4, "1<<63": -(1 << 63), "1<<62": 1 << 62, "1<<62<<1": -(1 << 63),
    "0-1>>63": 0, "(0-1)>>63": -1,
    "6^3": 5, "6 .bitxor 3": 5, "6 .bitand 3": 2, "6 .bitor 1": 7, ".bitnot 0": -1, ".lobyte($1234)": 0x34, ".hibyte $1234": 0x12,
    ".bankbyte($123456)": 0x12, "3<>3": 0, "3<=3": 1, "3>=4": 0, "3>2": 1, "3<2": 0, "5 .and 2": 1, "0 .or 2": 1,
    "$FFFFFFFF*$FFFFFFFF": ((0xFFFFFFFF**2 + (1 << 63)) % (1 << 64)) - (1 << 63),
    # no value
    "1/0": None, "1 .mod 0": None, "1<<64": None, "1<<-1": None, "1>>64": None, "other": None, "five+other": None, "": None, "1+": None,
    "1 2": None, "(1": None, "1)": None, "1+!0": None, "five::deep": None, "12ab": None, "'ab": None, "*": None, "@l": None, "-": None,
}  # fmt: skip
# The name at the beginning of a text, and what number the token after it has.
SCOPED = {
    "a": ("a", 1), "a::b": ("a::b", 3), "::a": ("::a", 2), "::a::b+1": ("::a::b", 4), "a::": ("a", 1), "1": ("", 0), "::1": ("", 0), "": ("", 0),
}  # fmt: skip


class Expressions(rows.Rows):
    """Values of expressions."""

    def test_values(self):
        self.rows(VALUES, lambda text: value(rows.tokens_of(text), NAMES.get))

    def test_nesting(self):
        """A nest that is too deep to be read has no value, and ends nothing."""
        self.rows({60: 1, 100000: None}, lambda depth: value(rows.tokens_of("(" * depth + "1" + ")" * depth), NAMES.get))

    def test_names(self):
        self.rows(SCOPED, lambda text: scoped_name(rows.tokens_of(text), 0))
