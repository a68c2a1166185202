"""Addresses, bytes and values of a module after the link."""
from typing import Dict, Optional

from work65.formats.objects import Form, Import, Operation, Place
from work65.frontend.expression import combined, prefixed, wrapped
from work65.instrumenting.build import Build, Unit

# The operators of an object's forms, by their codes.
UNARY = {0x10: "-", 0x11: "~", 0x12: "<", 0x13: ">", 0x14: "^", 0x15: "!"}
BINARY = dict(enumerate("* / .mod & ^ << >> + - | = <> < > <= >= && .xor ||".split(), 0x20))


class Resolver:
    """Resolves places and values of one module."""

    def __init__(self, build: Build, unit: Unit) -> None:
        self.build, self.layout = build, build.layout
        parts = unit.linked.parts if unit.linked else []
        self.offsets = {it.segment: it.offset for it in parts}
        self.runs: Dict[str, int] = {it.segment: self.layout.map.row(it.segment).run + it.offset for it in parts}
        self.files: Dict[str, Optional[int]] = {it.segment: self.layout.place_in_file(it.segment) for it in parts}
        self.data = {it.segment: build.files.get(self.layout.file_of(it.segment), b"") for it in parts}

    def address(self, place: Place) -> int:
        """Returns the address at which a place runs."""
        return self.runs[place.section] + place.offset

    def in_file(self, place: Place) -> Optional[int]:
        """Returns the offset of a place in its file, None if it isn't in one."""
        begun = self.files[place.section]
        return None if begun is None else begun + self.offsets[place.section] + place.offset

    def bytes_at(self, place: Place, size: int) -> bytes:
        """Returns the bytes at a place, empty if it isn't in a file."""
        at = self.in_file(place)
        return b"" if at is None else self.data[place.section][at : at + size]

    def value(self, form: Form) -> Optional[int]:
        """Returns the value of a form, None if it has none."""
        if isinstance(form, Place):
            return self.address(form)
        if isinstance(form, Import):
            symbol = self.layout.map.symbols.get(form.name)
            return None if symbol is None else wrapped(symbol)
        if isinstance(form, Operation):
            parts = [it for it in map(self.value, form.parts) if it is not None]
            if len(parts) != len(form.parts):
                return None
            return prefixed(UNARY[form.code], *parts) if form.code in UNARY else combined(BINARY[form.code], *parts)
        return form
