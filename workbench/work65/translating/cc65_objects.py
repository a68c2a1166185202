"""Objects and libraries of cc65's tools. All lengths and numbers are checked: a damaged file is a
Problem that names the module."""
import struct
from array import array
from enum import Enum
from typing import Iterator, List, NamedTuple, Optional, Tuple, Union

from work65.problem import Problem
from work65.translating.cc65_numbers import Damage, number, past_numbers, strings

OBJECT_MAGIC, LIBRARY_MAGIC = b"\x55\x7a\x6e\x61", b"\x6e\x61\x55\x7a"
OBJECT_VERSION, LIBRARY_VERSION = 0x11, 0x0D
# An object's head: magic, version, flags, and the offsets and sizes of these tables.
HEAD = struct.Struct("<4sHH22I")
OPTIONS, FILES, SECTIONS, IMPORTS, EXPORTS, DEBUG_SYMBOLS, LINES, STRINGS, ASSERTIONS = range(9)
# A library's head: magic, version, flags, offset of the index. A member's entry, after its name:
# flags, time, offset, size.
LIBRARY_HEAD = struct.Struct("<4sHHI")
ENTRY = struct.Struct("<HIII")
UNSIGNED, SIGNED = struct.Struct("<I"), struct.Struct("<i")
# What is no line of a source, in the table of lines.
NO_LINE = -1
# How deep an expression may be nested.
DEEPEST = 300
# The bits of an export's type: how many condes bytes it has, whether it has a size, and whether its
# value is an expression.
CONDES_COUNT, HAS_SIZE, HAS_EXPRESSION = 0x07, 0x08, 0x10


class Kind(Enum):
    """The files of cc65's tools."""

    OBJECT = 1
    LIBRARY = 2


class ImportIndex(NamedTuple):
    """The value of an import of the object."""

    number: int


class SectionIndex(NamedTuple):
    """The address at which the object's part of a segment starts."""

    number: int


class Operation(NamedTuple):
    """An operation by cc65's code, and its one or two parts."""

    code: int
    parts: Tuple["Expression", ...]


Expression = Union[int, ImportIndex, SectionIndex, Operation]


class Position(NamedTuple):
    """A line of a source."""

    file: str
    line: int


class Import(NamedTuple):
    """An imported name. The object knows the position of `lines`."""

    name: str
    address_size: int
    lines: int


class Export(NamedTuple):
    """An exported name and its value; `condes` has the type and priority in each table of
    routines."""

    name: str
    address_size: int
    condes: Tuple[Tuple[int, int], ...]
    value: Expression
    lines: int


class Value(NamedTuple):
    """A value of 1 to 4 bytes that the linker computes."""

    width: int
    is_signed: bool
    expression: Expression
    lines: int


class Fill(NamedTuple):
    """A number of bytes that the linker fills."""

    size: int


class Assertion(NamedTuple):
    """An assertion. Its action is 0 (warning), 1 (error), 2 (ldwarning) or 3 (lderror)."""

    action: int
    text: str
    expression: Expression
    lines: int


Fragment = Union[bytes, Value, Fill]


class Section(NamedTuple):
    """The object's part of a segment. Its fragments are read when they are asked for."""

    owner: "CcObject"
    name: str
    size: int
    alignment: int
    address_size: int
    fragment_count: int
    start: int
    end: int

    def fragments(self) -> Iterator[Fragment]:
        """Yields the fragments. Reads them anew at each call, and keeps none."""
        with self.owner.reading:
            yield from self.owner.fragments_of(self)


class Reading:
    """Makes a Problem that names the file of what a damaged one raises in a `with` statement."""

    def __init__(self, name: str) -> None:
        self.name = name

    def __enter__(self) -> None:
        pass

    def __exit__(self, _: object, error: Optional[BaseException], __: object) -> None:
        if isinstance(error, (Damage, IndexError, struct.error)):
            reason = str(error) if isinstance(error, Damage) else "it is cut short"
            what = "can't be read as a file of cc65's tools"
            raise Problem(f"{self.name}: {what}: {reason}") from error


class CcObject:
    """An object of cc65's assembler. Fragments and source lines are read when they are asked
    for."""

    def __init__(self, data: bytes, name: str) -> None:
        self.data, self.name, self.reading = data, name, Reading(name)
        self.tables = tables_of(data)
        self.lines: Optional["array[int]"] = None
        self.files: List[str] = []
        self.strings = strings(data, *self.tables[STRINGS])
        self.section_count, _ = number(data, self.tables[SECTIONS][0])
        self.sections = list(self.read_sections())
        self.imports = list(self.read_imports())
        self.exports = list(self.read_exports())
        self.assertions = list(self.read_assertions())

    def table(self, which: int) -> Tuple[int, int]:
        """Returns how many entries a table has, and the offset of the first one."""
        return number(self.data, self.tables[which][0])

    def finish(self, which: int, at: int) -> None:
        """Checks that a table ends where its head says."""
        if at != self.tables[which][1]:
            raise Damage("a table has another size")

    def text(self, index: int) -> str:
        """Returns a text of the object."""
        return self.strings[index].decode("utf-8", "surrogateescape")

    def read_sections(self) -> Iterator[Section]:
        """Yields the sections. The content of each is skipped."""
        data = self.data
        count, at = self.table(SECTIONS)
        for _ in range(count):
            size_of_data, start = UNSIGNED.unpack_from(data, at)[0], at + 4
            name, at = number(data, start)
            _, at = number(data, at)
            size, at = number(data, at)
            alignment, at = number(data, at)
            address_size, at = number(data, at)
            fragments, at = number(data, at)
            end = start + size_of_data
            if not at <= end <= self.tables[SECTIONS][1]:
                raise Damage("a section has another size")
            yield Section(self, self.text(name), size, alignment, address_size, fragments, at, end)
            at = end
        self.finish(SECTIONS, at)

    def read_imports(self) -> Iterator[Import]:
        """Yields the imports."""
        data = self.data
        count, at = self.table(IMPORTS)
        for _ in range(count):
            address_size = data[at]
            name, at = number(data, at + 1)
            declared = at
            used = past_numbers(data, at)
            at = past_numbers(data, used)
            yield Import(self.text(name), address_size, used if data[used] else declared)
        self.finish(IMPORTS, at)

    def read_exports(self) -> Iterator[Export]:
        """Yields the exports."""
        data = self.data
        count, at = self.table(EXPORTS)
        for _ in range(count):
            kind, at = number(data, at)
            address_size, at = data[at], at + 1
            after = at + (kind & CONDES_COUNT)
            condes = tuple((it >> 5, (it & 0x1F) + 1) for it in data[at:after])
            name, at = number(data, after)
            value: Expression
            if kind & HAS_EXPRESSION:
                value, at = self.expression(at)
            else:
                value, at = UNSIGNED.unpack_from(data, at)[0], at + 4
            if kind & HAS_SIZE:
                _, at = number(data, at)
            lines = at
            at = past_numbers(data, past_numbers(data, at))
            yield Export(self.text(name), address_size, condes, value, lines)
        self.finish(EXPORTS, at)

    def read_assertions(self) -> Iterator[Assertion]:
        """Yields the assertions."""
        count, at = self.table(ASSERTIONS)
        for _ in range(count):
            expression, at = self.expression(at)
            action, at = number(self.data, at)
            text, at = number(self.data, at)
            if action > 3:
                raise Damage("an unknown action of an assertion")
            yield Assertion(action, self.text(text), expression, at)
            at = past_numbers(self.data, at)
        self.finish(ASSERTIONS, at)

    def fragments_of(self, section: Section) -> Iterator[Fragment]:
        """Yields the fragments of a section."""
        data, at, size = self.data, section.start, 0
        for _ in range(section.fragment_count):
            kind, at = data[at], at + 1
            if kind & 0x18 in (0x08, 0x10) and 1 <= kind & 7 <= 4 and kind < 0x20:
                expression, at = self.expression(at)
                size += kind & 7
                yield Value(kind & 7, kind >= 0x10, expression, at)
            elif kind == 0x00:
                length, at = (data[at], at + 1) if data[at] < 0x80 else number(data, at)
                yield data[at : at + length]
                at, size = at + length, size + length
            elif kind == 0x20:
                length, at = number(data, at)
                size += length
                yield Fill(length)
            else:
                raise Damage("an unknown kind of fragment")
            at = at + 2 if data[at] == 1 and data[at + 1] < 0x80 else past_numbers(data, at)
        if at != section.end or size != section.size:
            raise Damage("a section has another size")

    def expression(self, at: int, depth: int = 0) -> Tuple[Expression, int]:
        """Reads an expression. Returns it and the offset after it."""
        data = self.data
        code = data[at]
        if code == 0x81:
            return SIGNED.unpack_from(data, at + 1)[0], at + 5
        if code == 0x82 or code == 0x83:
            index, at = number(data, at + 1)
            if index >= (len(self.imports) if code == 0x82 else self.section_count):
                raise Damage("an unknown import or section")
            return (ImportIndex(index) if code == 0x82 else SectionIndex(index)), at
        if depth >= DEEPEST:
            raise Damage(f"an expression is nested over {DEEPEST} deep")
        if not (0x01 <= code <= 0x15 or 0x41 <= code <= 0x50):
            raise Damage("an unknown operation")
        left, at = self.expression(at + 1, depth + 1)
        if 0x01 <= code <= 0x15:
            right, at = self.expression(at, depth + 1)
            return Operation(code, (left, right)), at
        if data[at]:
            raise Damage("an operation has too many parts")
        return Operation(code, (left,)), at + 1

    def position(self, lines: int) -> Optional[Position]:
        """Returns the first line of a source in the list at an offset, None if there is none."""
        with self.reading:
            count, at = number(self.data, lines)
            if count and self.lines is None:
                self.files = self.read_files()
                self.lines = self.read_lines()
            for _ in range(count):
                index, at = number(self.data, at)
                line = self.lines[index] if self.lines else NO_LINE
                if line != NO_LINE:
                    return Position(self.files[line >> 32], line & 0xFFFFFFFF)
        return None

    def read_files(self) -> List[str]:
        """Reads the names of the sources."""
        data, found = self.data, []
        count, at = self.table(FILES)
        for _ in range(count):
            name, at = number(data, at)
            _, at = number(data, at + 4)
            found.append(self.text(name))
        self.finish(FILES, at)
        return found

    def read_lines(self) -> "array[int]":
        """Reads the source lines: of each the file's number and, in the lower 32 bits, the line.
        What is no line of a source is NO_LINE."""
        data, found, files = self.data, array("q"), len(self.files)
        count, at = self.table(LINES)
        for _ in range(count):
            line, at = (data[at], at + 1) if data[at] < 0x80 else number(data, at)
            column_and_after = data[at : at + 4]
            if max(column_and_after) < 0x80 and column_and_after[3] == 0:
                file, kind, at = column_and_after[1], column_and_after[2], at + 4
            else:
                _, at = number(data, at)
                file, at = number(data, at)
                kind, at = number(data, at)
                at = past_numbers(data, at)
            if file >= files:
                raise Damage("an unknown source")
            found.append(NO_LINE if kind & 3 else file << 32 | line)
        self.finish(LINES, at)
        return found


def tables_of(data: bytes) -> List[Tuple[int, int]]:
    """Returns where the tables of an object begin and end."""
    magic, version, _, *numbers = HEAD.unpack_from(data)
    if magic != OBJECT_MAGIC:
        raise Damage("it isn't an object")
    if version != OBJECT_VERSION:
        readable = f"only objects of version {OBJECT_VERSION} can be read"
        raise Damage(f"its version is {version}; {readable}")
    tables = [(start, start + size) for start, size in zip(numbers[::2], numbers[1::2])]
    if max(end for _, end in tables) > len(data):
        raise Damage("it is cut short")
    return tables


def kind_of(data: bytes) -> Optional[Kind]:
    """Returns which kind of cc65's files begins with these bytes, None if none does."""
    return {OBJECT_MAGIC: Kind.OBJECT, LIBRARY_MAGIC: Kind.LIBRARY}.get(data[:4])


def read_object(data: bytes, name: str) -> CcObject:
    """Reads an object. Messages name it by `name`."""
    with Reading(name):
        return CcObject(data, name)


class Member(NamedTuple):
    """A member of a library, which is an object."""

    name: str
    data: bytes
    library: str

    def object(self) -> CcObject:
        """Reads the member."""
        return read_object(self.data, f"{self.library}({self.name})")


def members_of(data: bytes, library: str) -> Iterator[Member]:
    """Yields the members of a library."""
    magic, version, _, at = LIBRARY_HEAD.unpack_from(data)
    if magic != LIBRARY_MAGIC:
        raise Damage("it isn't a library")
    if version != LIBRARY_VERSION:
        readable = f"only libraries of version {LIBRARY_VERSION} can be read"
        raise Damage(f"its version is {version}; {readable}")
    count, at = number(data, at)
    total = 0
    for _ in range(count):
        length, at = number(data, at)
        name, at = data[at : at + length], at + length
        _, _, start, size = ENTRY.unpack_from(data, at)
        at, total = at + ENTRY.size, total + size
        if start + size > len(data):
            raise Damage("it is cut short")
        if total > len(data):
            raise Damage("its members overlap")
        yield Member(name.decode("utf-8", "surrogateescape"), data[start : start + size], library)


def read_library(data: bytes, name: str) -> List[Member]:
    """Reads a library: its members, whose objects aren't read yet. Messages name it by `name`."""
    with Reading(name):
        return list(members_of(data, name))
