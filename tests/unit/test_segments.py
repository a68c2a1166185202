"""The open segment after some lines, and the names that a list imports as zero page addresses."""
import rows
from work65.frontend.segments import Segments, short_names

OPEN = {
    "": ("CODE", False),
    " .bss": ("BSS", False),
    " .zeropage": ("ZEROPAGE", True),
    ' .segment "EXTZP"': ("EXTZP", False),
    ' .segment "EXTZP": zeropage': ("EXTZP", True),
    ' .segment "EXTZP": zp| .code| .segment "EXTZP"': ("EXTZP", True),
    ' .segment "FAR": absolute': ("FAR", False),
    " .zeropage| .pushseg| .code": ("CODE", False),
    " .zeropage| .pushseg| .code| .popseg": ("ZEROPAGE", True),
    " .popseg": ("CODE", False),
    " .rodata| nop": ("RODATA", False),
}
SHORT = {
    " .import n, m": ["n", "m"],
    " .import n: absolute, m": ["m"],
    " .importzp n": [],
    " .global own, n": ["n"],
    " .import own": ["own"],
    " .export n": [],
}


def opened(text):
    """Returns the open segment after lines, and whether it is a zero page one."""
    segments = Segments()
    for line in text.split("|"):
        segments.step(rows.statement(line))
    return segments.current, segments.is_zero_page


class Test(rows.Rows):
    """Tests of segments."""

    def test_open(self):
        self.rows(OPEN, opened)

    def test_short(self):
        self.rows(SHORT, lambda text: list(short_names(rows.statement(text), {"own"})))
