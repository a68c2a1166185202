"""Writes objects and libraries of bin65 (docs/FORMATS.md)."""
import re
import struct
from typing import Dict, Iterable, NamedTuple, Optional, Sequence, Tuple, Union

from work65.formats.objects import Fill, Form, Import, Place
from work65.problem import Problem
from work65.translating.cc65_objects import Position
from work65.translating.forms import MOST_NODES, TOO_LONG, node_count

HEAD = b"R65o\x02"
FILE, IMPORT, SECTION, LITERAL, FILL, VALUE, EXPORT, ASSERT, END = 9, 1, 2, 3, 4, 5, 6, 7, 8
MOST_IN_RECORD, MOST_IN_SECTION, GREATEST_EXPONENT, MOST_IN_NAME = 4096, 16_777_216, 15, 255
RECORD, VALUE_HEAD, LOCATION = struct.Struct("<BH"), struct.Struct("<BHBII"), struct.Struct("<II")
SECTION_HEAD, NUMBER_FORM = struct.Struct("<IB"), struct.Struct("<Bq")
PLACE_FORM, IMPORT_FORM = struct.Struct("<BIq"), struct.Struct("<BI")
INDEX = struct.Struct("<I")
NAME = re.compile("[!-~]{1,255}")
# The bytes of each width, and the smallest and the greatest value that fit.
BYTE, WORD, WORD_HIGH_FIRST, DWORD, BRANCH = range(5)
SIZES = (1, 2, 2, 4, 1)
RANGES = ((0, 0xFF), (0, 0xFFFF), (0, 0xFFFF), (0, 0xFFFFFFFF), (-0x80, 0x7F))


class Value(NamedTuple):
    """A value of a width. If its form is a number, it is written as its bytes."""

    width: int
    form: Form
    position: Optional[Position] = None


Fragment = Union[bytes, Value, Fill]


class Section(NamedTuple):
    """A section: its segment, its alignment (a power of two) and its content."""

    name: str
    alignment: int
    fragments: Iterable[Fragment]


class Export(NamedTuple):
    """An exported name and its value."""

    name: str
    form: Form
    position: Optional[Position] = None


class Assertion(NamedTuple):
    """An assertion that the linker decides: a warning, or an error."""

    is_error: bool
    text: bytes
    form: Form
    position: Optional[Position] = None


class Module(NamedTuple):
    """An object to write. `name` is for messages. `imports` come first; those that only forms hold
    follow, and aren't listed here. Likewise a section that only forms hold is an empty one after
    the others."""

    name: str
    imports: Sequence[str] = ()
    sections: Sequence[Section] = ()
    exports: Iterable[Export] = ()
    assertions: Iterable[Assertion] = ()


class Untranslatable(Problem):
    """What bin65's format can't hold: the module, the position and the reason."""

    def __init__(self, module: str, position: Optional[Position], reason: str) -> None:
        place = f"{position.file}:{position.line}: " if position else ""
        super().__init__(f"{module}: {place}{reason}")
        self.module, self.position, self.reason = module, position, reason

    def without_module(self) -> str:
        """Returns the message without the module's name."""
        return str(self)[len(self.module) + 2 :]


def record(kind: int, body: bytes) -> bytes:
    """Returns a record."""
    return RECORD.pack(kind, len(body)) + body


class ObjectWriter:
    """Writes one object. The body is written first, as its files and imports become known by it."""

    def __init__(self, module: Module) -> None:
        self.module = module
        self.body = bytearray()
        self.files: Dict[str, int] = {}
        self.imports: Dict[str, int] = {}
        self.sections: Dict[str, int] = {}
        self.literal, self.fill = bytearray(), 0

    def refuse(self, position: Optional[Position], reason: str) -> Untranslatable:
        """Returns the message on what can't be written."""
        return Untranslatable(self.module.name, position, reason)

    def name(self, name: str, position: Optional[Position] = None) -> bytes:
        """Returns the bytes of a name."""
        if not NAME.fullmatch(name):
            what = f"a name with more than {MOST_IN_NAME} bytes or with other bytes than 21 to 7E"
            raise self.refuse(position, f"{what}: {name[:40]!a}")
        return name.encode("ascii")

    def location(self, position: Optional[Position]) -> Tuple[int, int]:
        """Returns the number of a file, and a line."""
        file, line = position or ("", 0)
        return self.files.setdefault(file, len(self.files)), line

    def form(self, form: Form) -> bytes:
        """Returns the bytes of a form."""
        if isinstance(form, Place):
            section = self.sections.setdefault(form.section, len(self.sections))
            return PLACE_FORM.pack(1, section, form.offset)
        if isinstance(form, Import):
            return IMPORT_FORM.pack(2, self.imports.setdefault(form.name, len(self.imports)))
        if isinstance(form, int):
            return NUMBER_FORM.pack(0, form)
        return b"%c%b" % (form.code, b"".join(map(self.form, form.parts)))

    def whole_form(self, form: Form, position: Optional[Position]) -> bytes:
        """Returns the bytes of a form that isn't a part of another one."""
        found = self.form(form)
        if len(found) > MOST_NODES and node_count(form) > MOST_NODES:
            raise self.refuse(position, TOO_LONG)
        return found

    def flush(self) -> None:
        """Writes the literal or the fill that waits for more of its kind."""
        for at in range(0, len(self.literal), MOST_IN_RECORD):
            self.body += record(LITERAL, self.literal[at : at + MOST_IN_RECORD])
        if self.fill:
            self.body += record(FILL, INDEX.pack(self.fill))
        self.literal, self.fill = bytearray(), 0

    def add_literal(self, data: bytes) -> None:
        """Adds bytes."""
        if self.fill:
            self.flush()
        self.literal += data

    def add_fill(self, size: int) -> None:
        """Adds bytes that the linker fills."""
        if self.literal:
            self.flush()
        self.fill += size

    def add_value(self, value: Value) -> None:
        """Adds a value, as bytes if it is a number."""
        width, form, position = value
        if isinstance(form, int):
            lowest, greatest = RANGES[width]
            if not lowest <= form <= greatest:
                raise self.refuse(position, f"a value is out of range: {form}")
            data = (form % 256 ** SIZES[width]).to_bytes(SIZES[width], "little")
            self.add_literal(data[::-1] if width == WORD_HIGH_FIRST else data)
            return
        if self.literal or self.fill:
            self.flush()
        found = self.whole_form(form, position)
        self.body += VALUE_HEAD.pack(VALUE, 9 + len(found), width, *self.location(position))
        self.body += found

    def add_fragments(self, section: Section) -> int:
        """Adds the content of a section. Returns its size."""
        size = 0
        for fragment in section.fragments:
            if isinstance(fragment, bytes):
                size += len(fragment)
                self.add_literal(fragment)
            elif isinstance(fragment, Value):
                size += SIZES[fragment.width]
                self.add_value(fragment)
            else:
                size += fragment.size
                self.add_fill(fragment.size)
            if size > MOST_IN_SECTION:
                what = f"has more than {MOST_IN_SECTION} bytes"
                raise self.refuse(None, f"segment {section.name} {what}")
        self.flush()
        return size

    def section_record(self, section: Section, size: int) -> bytes:
        """Returns the record of a section."""
        exponent = section.alignment.bit_length() - 1
        if section.alignment != 1 << max(exponent, 0) or exponent > GREATEST_EXPONENT:
            what = f"no power of two up to {1 << GREATEST_EXPONENT}"
            reason = f"segment {section.name} has the alignment {section.alignment}, {what}"
            raise self.refuse(None, reason)
        return record(SECTION, SECTION_HEAD.pack(size, exponent) + self.name(section.name))

    def add_exports(self, exports: Iterable[Export]) -> None:
        """Adds exports."""
        known = set()
        for name, form, position in exports:
            if name in known:
                raise self.refuse(position, f"a second export of {name}")
            known.add(name)
            body = self.name(name, position)
            head = bytes((len(body),)) + body + LOCATION.pack(*self.location(position))
            self.body += record(EXPORT, head + self.whole_form(form, position))

    def add_assertions(self, assertions: Iterable[Assertion]) -> None:
        """Adds assertions."""
        for it in assertions:
            text = it.text[:MOST_IN_NAME]
            head = bytes((it.is_error,)) + LOCATION.pack(*self.location(it.position))
            form = self.whole_form(it.form, it.position)
            self.body += record(ASSERT, head + bytes((len(text),)) + text + form)

    def write(self) -> bytes:
        """Returns the bytes of the object."""
        for name in self.module.imports:
            self.imports.setdefault(name, len(self.imports))
        for it in self.module.sections:
            if it.name in self.sections:
                raise self.refuse(None, f"a second section of segment {it.name}")
            self.sections[it.name] = len(self.sections)
        sections = [self.section_record(it, self.add_fragments(it)) for it in self.module.sections]
        self.add_exports(self.module.exports)
        self.add_assertions(self.module.assertions)
        others = list(self.sections)[len(sections) :]
        sections += [self.section_record(Section(it, 1, ()), 0) for it in others]
        files = [record(FILE, file_name(it)) for it in self.files]
        imports = [record(IMPORT, self.name(it)) for it in self.imports]
        return b"".join((HEAD, *files, *imports, *sections, self.body, record(END, b"")))


def file_name(name: str) -> bytes:
    """Returns a source's name in UTF-8; bytes that aren't UTF-8 are shown by their numbers."""
    found = name.encode("utf-8", "backslashreplace")[:MOST_IN_RECORD]
    return found.decode("utf-8", "ignore").encode()


def written(module: Module) -> bytes:
    """Returns the bytes of an object."""
    return ObjectWriter(module).write()
