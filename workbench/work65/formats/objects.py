"""Objects of bin65 ca65 (docs/FORMATS.md): sections with fragments, imports, exports and assertions."""
import struct
from dataclasses import dataclass, field
from typing import List, NamedTuple, Optional, Tuple, Union

from work65.problem import Problem


class Place(NamedTuple):
    """An offset in a section, given by its name."""

    section: str
    offset: int


class Import(NamedTuple):
    """The value of an imported name."""

    name: str


class Operation(NamedTuple):
    """An operation by its code, and its operands."""

    code: int
    parts: Tuple["Form", ...]


Form = Union[int, Place, Import, Operation]


class Value(NamedTuple):
    """A value that the linker computes."""

    width: int
    form: Form


class Fill(NamedTuple):
    """A number of bytes that the linker fills."""

    size: int


Fragment = Union[bytes, Value, Fill]


@dataclass
class Section:
    """A section: its name, size, alignment and content."""

    name: str
    size: int
    alignment: int
    fragments: List[Fragment] = field(default_factory=list)


class Use(NamedTuple):
    """A statement whose value has an import: the name of that, and the statement's place."""

    name: str
    file: str
    line: int


@dataclass
class Object:
    """A module, without source locations but those of the uses of imports."""

    imports: List[str] = field(default_factory=list)
    sections: List[Section] = field(default_factory=list)
    exports: List[Tuple[str, Form]] = field(default_factory=list)
    asserts: List[Tuple[int, bytes, Form]] = field(default_factory=list)
    uses: List[Use] = field(default_factory=list)

    def without(self, name: str) -> "Object":
        """Returns the same object without a section."""
        return Object(self.imports, [it for it in self.sections if it.name != name], self.exports, self.asserts)

    def section(self, name: str) -> Optional[Section]:
        """Returns the section of a name, None if there is none."""
        return next((it for it in self.sections if it.name == name), None)

    def is_same_program(self, other: "Object") -> bool:
        """Returns whether two objects have the same content, exports and assertions. Unused imports, the order of sections, and
        sections without bytes make no difference."""
        mine, others = ({it.name: it for it in one.sections if it.size} for one in (self, other))
        return (mine, self.exports, self.asserts) == (others, other.exports, other.asserts)


WIDTHS = (1, 2, 2, 4, 1)
HEAD = b"R65o\x02"
RECORD, SECTION, PLACE, NUMBER, INDEX = map(struct.Struct, ("<BH", "<IB", "<Iq", "<q", "<I"))


class ObjectReader:
    """Reads the records of an object of version 2."""

    def __init__(self, data: bytes) -> None:
        self.data, self.object = data, Object()
        self.filled = 0
        self.current = 0
        self.files: List[str] = []
        self.location = 0

    def read(self) -> Object:
        """Reads the object."""
        data = self.data
        if data[:5] != HEAD:
            raise Problem("an object isn't of version 2: use a newer bin65")
        at, end = 5, len(data)
        while at < end:
            kind, length = RECORD.unpack_from(data, at)
            at += 3
            if kind == 5:
                self.location = at + 1
                self.fragment(Value(data[at], self.form(at + 9)[0]), WIDTHS[data[at]])
            elif kind == 3:
                self.fragment(data[at : at + length], length)
            else:
                self.record(kind, at, length)
            at += length
        return self.object

    def record(self, kind: int, at: int, length: int) -> None:
        """Reads a record that isn't bytes or a value."""
        body = self.data[at : at + length]
        if kind == 4:
            count = int.from_bytes(body, "little")
            self.fragment(Fill(count), count)
        elif kind == 1:
            self.object.imports.append(body.decode("latin-1"))
        elif kind == 2:
            size, alignment = SECTION.unpack_from(body)
            self.object.sections.append(Section(body[5:].decode("latin-1"), size, 1 << alignment))
        elif kind == 9:
            self.files.append(body.decode("utf-8", "surrogateescape"))
        elif kind == 6:
            size = body[0]
            self.location = at + 1 + size
            self.object.exports.append((body[1 : 1 + size].decode("latin-1"), self.form(at + size + 9)[0]))
        elif kind == 7:
            size = body[9]
            self.location = at + 1
            self.object.asserts.append((body[0], body[10 : 10 + size], self.form(at + 10 + size)[0]))

    def fragment(self, fragment: Fragment, size: int) -> None:
        """Adds a fragment to the first section that isn't full."""
        sections = self.object.sections
        while self.filled >= sections[self.current].size:
            self.current, self.filled = self.current + 1, 0
        sections[self.current].fragments.append(fragment)
        self.filled += size

    def form(self, at: int) -> Tuple[Form, int]:
        """Reads a form. Returns it and the offset after it."""
        code = self.data[at]
        if code == 1:
            section, offset = PLACE.unpack_from(self.data, at + 1)
            return Place(self.object.sections[section].name, offset), at + 13
        if code == 0:
            return int(NUMBER.unpack_from(self.data, at + 1)[0]), at + 9
        if code == 2:
            name = self.object.imports[INDEX.unpack_from(self.data, at + 1)[0]]
            file, line = (INDEX.unpack_from(self.data, self.location + it)[0] for it in (0, 4))
            self.object.uses.append(Use(name, self.files[file], line))
            return Import(name), at + 5
        parts = []
        at += 1
        for _ in range(1 if code < 0x20 else 2):
            part, at = self.form(at)
            parts.append(part)
        return Operation(code, tuple(parts)), at


def read_object(data: bytes) -> Object:
    """Reads an object. Raises a Problem if it is of another version."""
    return ObjectReader(data).read()
