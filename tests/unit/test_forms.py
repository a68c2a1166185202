"""Forms of bin65's objects: what docs/FORMATS.md says is folded, and what stays, with the values of
docs/LANGUAGE.md's operators."""
import rows
from work65.formats.objects import Import, Operation, Place
from work65.translating import forms
from work65.translating.forms import NoValue, joined, node_count, prefixed

A, A1, A5, B, I = Place("A", 0), Place("A", 1), Place("A", 5), Place("B", 0), Import("i")
LEAST, GREATEST = -(1 << 63), (1 << 63) - 1
FOLDED = {
    (forms.PLUS, 2, 3): 5, (forms.PLUS, GREATEST, 1): LEAST, (forms.MINUS, LEAST, 1): GREATEST,
    (forms.TIMES, 1 << 62, 4): 0,
    (forms.DIVIDED, 7, 2): 3, (forms.DIVIDED, -7, 2): -3, (forms.DIVIDED, 7, -2): -3,
    (forms.DIVIDED, LEAST, -1): LEAST,
    (forms.REMAINDER, 7, 2): 1, (forms.REMAINDER, -7, 2): -1, (forms.REMAINDER, 7, -2): 1,
    (forms.REMAINDER, LEAST, -1): 0,
    (forms.AND, 12, 10): 8, (forms.OR, 12, 10): 14, (forms.EXCLUSIVE, 12, 10): 6,
    (forms.AND, -1, 255): 255,
    (forms.LEFT, 1, 63): LEAST, (forms.LEFT, 3, 0): 3, (forms.RIGHT, -1, 63): -1,
    (forms.RIGHT, -8, 1): -4, (forms.RIGHT, 256, 8): 1,
    (forms.EQUAL, 2, 2): 1, (forms.UNEQUAL, 2, 2): 0, (forms.LESS, -1, 0): 1,
    (forms.GREATER, -1, 0): 0, (forms.AT_MOST, 2, 2): 1,
    (forms.AT_LEAST, 1, 2): 0, (forms.BOTH, 5, 0): 0, (forms.BOTH, 5, 6): 1,
    (forms.EITHER, 0, 0): 0, (forms.EITHER, 0, 6): 1,
    (forms.ONE_OF_TWO, 5, 6): 0, (forms.ONE_OF_TWO, 5, 0): 1,
    (forms.PLUS, A1, 4): A5, (forms.PLUS, 4, A1): A5, (forms.MINUS, A5, 4): A1,
    (forms.MINUS, A5, A1): 4, (forms.MINUS, A1, A5): -4,
    (forms.PLUS, Place("A", GREATEST), 1): Place("A", LEAST),
    (forms.MINUS, A, LEAST): Place("A", LEAST),
}  # fmt: skip
KEPT = (
    (forms.MINUS, 4, A), (forms.MINUS, A, B), (forms.PLUS, A, B), (forms.PLUS, A, A),
    (forms.MINUS, I, I), (forms.PLUS, I, 0), (forms.TIMES, A, 1),
    (forms.TIMES, I, 0), (forms.AND, A, 255), (forms.EQUAL, A, A), (forms.BOTH, 0, I),
    (forms.MINUS, A, I), (forms.DIVIDED, A, 0),
)  # fmt: skip
NO_VALUES = ((forms.DIVIDED, 1, 0), (forms.REMAINDER, 1, 0), (forms.LEFT, 1, 64),
             (forms.LEFT, 1, -1), (forms.RIGHT, 1, 64), (forms.RIGHT, 0, -1))
PREFIXED = {
    (forms.NEGATED, 5): -5, (forms.NEGATED, LEAST): LEAST, (forms.COMPLEMENT, 0): -1,
    (forms.COMPLEMENT, GREATEST): LEAST, (forms.OPPOSITE, 0): 1,
    (forms.OPPOSITE, -3): 0, (forms.LOW, 0x123456): 0x56, (forms.HIGH, 0x123456): 0x34,
    (forms.THIRD, 0x123456): 0x12, (forms.LOW, -1): 0xFF,
    (forms.HIGH, -256): 0xFF, (forms.THIRD, -0x10000): 0xFF,
    (forms.LOW, A): Operation(forms.LOW, (A,)), (forms.NEGATED, I): Operation(forms.NEGATED, (I,)),
}  # fmt: skip
COUNTS = {5: 1, A: 1, I: 1, Operation(forms.LOW, (A,)): 2,
          Operation(forms.PLUS, (Operation(forms.LOW, (A,)), I)): 4}


def value(given):
    """Whether an operation has a value."""
    try:
        joined(*given)
        return True
    except NoValue:
        return False


class Forms(rows.Rows):
    def test_folded(self):
        self.rows(FOLDED, lambda it: joined(*it))

    def test_kept(self):
        self.rows({it: Operation(it[0], it[1:]) for it in KEPT}, lambda it: joined(*it))

    def test_no_value(self):
        self.rows({it: False for it in NO_VALUES}, value)

    def test_prefixed(self):
        self.rows(PREFIXED, lambda it: prefixed(*it))

    def test_count(self):
        self.rows(COUNTS, node_count)
