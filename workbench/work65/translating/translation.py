"""Translates an object of cc65's assembler to an object of bin65's."""
from typing import AbstractSet, Callable, Iterator, NamedTuple, Optional, Sequence

from work65.formats import objects
from work65.formats.objects import Form, Place
from work65.translating import forms, r65_writer
from work65.translating.cc65_objects import CcObject, Expression, Fill, ImportIndex, Operation
from work65.translating.cc65_objects import Section, SectionIndex
from work65.translating.forms import NoValue, joined, node_count, prefixed
from work65.translating.r65_writer import Untranslatable

NEEDS_LINK = "a .bank has a value only in a link"
# The operators and prefixes that bin65 has as well, by cc65's code.
OPERATORS = {
    0x01: forms.PLUS, 0x02: forms.MINUS, 0x03: forms.TIMES, 0x04: forms.DIVIDED,
    0x05: forms.REMAINDER, 0x06: forms.OR, 0x07: forms.EXCLUSIVE, 0x08: forms.AND,
    0x09: forms.LEFT, 0x0A: forms.RIGHT, 0x0B: forms.EQUAL, 0x0C: forms.UNEQUAL,
    0x0D: forms.LESS, 0x0E: forms.GREATER, 0x0F: forms.AT_MOST, 0x10: forms.AT_LEAST,
    0x11: forms.BOTH, 0x12: forms.EITHER, 0x13: forms.ONE_OF_TWO,
}  # fmt: skip
PREFIXES = {
    0x41: forms.NEGATED, 0x42: forms.COMPLEMENT, 0x44: forms.OPPOSITE,
    0x48: forms.LOW, 0x49: forms.HIGH, 0x4A: forms.THIRD,
}  # fmt: skip
BOTH, EITHER, MAXIMUM, MINIMUM, SWAP, BANK = 0x11, 0x12, 0x14, 0x15, 0x43, 0x45
# The parts of a value that bin65 has no prefix for: how far it is shifted to the right, and which
# bits are kept.
PARTS = {
    0x4B: (24, 0xFF), 0x4C: (0, 0xFFFF), 0x4D: (16, 0xFFFF), 0x4E: (0, 0xFFFFFF),
    0x4F: (0, 0xFFFFFFFF), 0x50: (0, 0xFFFF),
}  # fmt: skip
# By the bytes of a value and whether it is signed: values of bin65's widths, and of each how far
# the value is shifted to the right, and which bits are kept (0: all). The last one checks the range
# of the whole.
PARTS_OF_VALUE = {
    (1, False): ((r65_writer.BYTE, 0, 0),),
    (2, False): ((r65_writer.WORD, 0, 0),),
    (3, False): ((r65_writer.WORD, 0, 0xFFFF), (r65_writer.BYTE, 16, 0)),
    (4, False): ((r65_writer.DWORD, 0, 0),),
    (1, True): ((r65_writer.BRANCH, 0, 0),),
    (2, True): ((r65_writer.BYTE, 0, 0xFF), (r65_writer.BRANCH, 8, 0)),
    (3, True): ((r65_writer.WORD, 0, 0xFFFF), (r65_writer.BRANCH, 16, 0)),
    (4, True): (
        (r65_writer.WORD, 0, 0xFFFF), (r65_writer.BYTE, 16, 0xFF), (r65_writer.BRANCH, 24, 0),
    ),
}  # fmt: skip


class LinkFacts(NamedTuple):
    """What a link decides about an object: which exports are left out, what it imports besides, the
    number of a `.bank`, and whether the sections are kept that have no bytes, no alignment and no
    labels."""

    omitted: AbstractSet[str] = frozenset()
    imported: Sequence[str] = ()
    bank_of: Optional[Callable[[Expression], int]] = None
    keeps_empty: bool = True


def part_of(form: Form, shift: int, mask: int) -> Form:
    """Returns the form of some bits of a value. The mask 0 keeps all."""
    found = joined(forms.RIGHT, form, shift) if shift else form
    return joined(forms.AND, found, mask) if mask else found


def swapped(form: Form) -> Form:
    """Returns the form of a word whose bytes are swapped."""
    higher = joined(forms.AND, joined(forms.LEFT, form, 8), 0xFF00)
    return joined(forms.OR, part_of(form, 8, 0xFF), higher)


def one_of(code: int, left: Form, right: Form) -> Form:
    """Returns the form of the greater or the lesser of two values."""
    is_left = forms.GREATER if code == MAXIMUM else forms.LESS
    is_right = forms.AT_MOST if code == MAXIMUM else forms.AT_LEAST
    first = joined(forms.TIMES, joined(is_left, left, right), left)
    return joined(forms.PLUS, first, joined(forms.TIMES, joined(is_right, left, right), right))


class Translation:
    """Translates one object."""

    def __init__(self, obj: CcObject, facts: LinkFacts) -> None:
        self.object, self.facts = obj, facts
        self.imports = [objects.Import(it.name) for it in obj.imports]
        self.places = [Place(it.name, 0) for it in obj.sections]

    def refuse(self, lines: int, reason: str) -> Untranslatable:
        """Returns the message on what can't be translated."""
        return Untranslatable(self.object.name, self.object.position(lines), reason)

    def form(self, expression: Expression) -> Form:
        """Returns the form of an expression."""
        if isinstance(expression, Operation):
            code, parts = expression
            return self.prefix(code, parts[0]) if len(parts) == 1 else self.operation(code, *parts)
        if isinstance(expression, SectionIndex):
            return self.places[expression.number]
        return self.imports[expression.number] if isinstance(expression, ImportIndex) else expression

    def operation(self, code: int, first: Expression, second: Expression) -> Form:
        """Returns the form of an operator and two parts."""
        left = self.form(first)
        if isinstance(left, int) and (code == BOTH and not left or code == EITHER and left):
            # ld65 doesn't look at the second part, which may have no value.
            return int(code == EITHER)
        right = self.form(second)
        if code in OPERATORS:
            return joined(OPERATORS[code], left, right)
        self.limit(left)
        self.limit(right)
        return one_of(code, left, right)

    def prefix(self, code: int, only: Expression) -> Form:
        """Returns the form of a prefix and its part."""
        if code == BANK:
            if self.facts.bank_of is None:
                raise NoValue(NEEDS_LINK)
            return self.facts.bank_of(only)
        form = self.form(only)
        if code in PREFIXES:
            return prefixed(PREFIXES[code], form)
        if code in PARTS:
            return part_of(form, *PARTS[code])
        if code != SWAP:
            raise NoValue(f"an unknown operation: {code:02X}")
        self.limit(form)
        return swapped(form)

    @staticmethod
    def limit(form: Form) -> None:
        """Refuses a form that is to be written twice and would be too long."""
        if node_count(form) > forms.MOST_NODES:
            raise NoValue(forms.TOO_LONG)

    def form_at(self, expression: Expression, lines: int) -> Form:
        """Returns the form of an expression that has a place in a source."""
        try:
            return self.form(expression)
        except NoValue as error:
            raise self.refuse(lines, str(error)) from error

    def fragments(self, section: Section) -> Iterator[r65_writer.Fragment]:
        """Yields the fragments of a section."""
        for fragment in section.fragments():
            if isinstance(fragment, bytes):
                yield fragment
            elif isinstance(fragment, Fill):
                yield objects.Fill(fragment.size)
            else:
                width, is_signed, expression, lines = fragment
                form, position = self.form_at(expression, lines), self.object.position(lines)
                for part, shift, mask in PARTS_OF_VALUE[width, is_signed]:
                    yield r65_writer.Value(part, part_of(form, shift, mask), position)

    def exports(self) -> Iterator[r65_writer.Export]:
        """Yields the exports."""
        for it in self.object.exports:
            if it.name not in self.facts.omitted:
                form, position = self.form_at(it.value, it.lines), self.object.position(it.lines)
                yield r65_writer.Export(it.name, form, position)

    def assertions(self) -> Iterator[r65_writer.Assertion]:
        """Yields the assertions that the linker has to decide."""
        for it in self.object.assertions:
            form, is_error = self.form_at(it.expression, it.lines), it.action & 1 == 1
            if form == 0 and is_error:
                raise self.refuse(it.lines, f"an assertion fails: {it.text}")
            if not isinstance(form, int):
                text = it.text.encode("utf-8", "surrogateescape")
                yield r65_writer.Assertion(is_error, text, form, self.object.position(it.lines))

    def translate(self) -> bytes:
        """Returns the object of bin65's."""
        imports = [*(it.name for it in self.imports), *self.facts.imported]
        sections = []
        for it in self.object.sections:
            if self.facts.keeps_empty or it.size or it.alignment != 1:
                content = self.fragments(it) if it.fragment_count or it.size else ()
                sections.append(r65_writer.Section(it.name, it.alignment, content))
        name, exports, assertions = self.object.name, self.exports(), self.assertions()
        return r65_writer.written(r65_writer.Module(name, imports, sections, exports, assertions))


def translated(obj: CcObject, facts: LinkFacts = LinkFacts()) -> bytes:
    """Returns the object of bin65's."""
    return Translation(obj, facts).translate()
