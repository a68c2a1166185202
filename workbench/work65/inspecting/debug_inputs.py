"""The sources and images that a debug file names. They must be those of the build."""
import os
from typing import Dict, Iterator, List, Optional, Set, Tuple

from work65.formats.debug_records import DebugRecords, Record, unquoted
from work65.frontend.files import read_bytes, text_of
from work65.problem import Problem

C_LINE, MACRO_LINE = 1, 2


def places(name: str, path: str) -> List[str]:
    """Returns where a file may be: as it is named, or relative to the folder of the debug file."""
    beside = os.path.join(os.path.dirname(path), name)
    return [name] if beside == name else [name, beside]


def is_as_built(place: str, record: Record) -> bool:
    """Returns whether a file has the size and the time that a debug file says."""
    found = os.stat(place)
    said = (record.number("size"), record.number("mtime"))
    return (found.st_size, int(found.st_mtime) & 0xFFFFFFFF) == said


class DebugInputs:
    """The lines of the sources and the bytes of the images. `known` are the modules whose lines are
    known: those with scopes, but not those of C whose assembler source isn't there any more."""

    def __init__(self, records: DebugRecords, image: Optional[str]) -> None:
        self.records, self.given = records, image
        modules, scopes = records.all("mod"), records.all("scope")
        gone = set(self.compiled())
        self.known = {it.number("mod") for it in scopes} - gone
        self.unknown: Dict[str, None] = {}
        for number, module in enumerate(modules):
            if number not in self.known:
                self.unknown[self.module_name(number, is_input=True)] = None
        self.names: Dict[int, str] = {}
        self.texts: Dict[int, List[str]] = {}
        for number, record in enumerate(records.all("file")):
            if self.known.intersection(record.numbers("mod")):
                self.names[number] = self.place(record)
        self.images: Dict[str, Tuple[str, bytes]] = {}

    def compiled(self) -> Iterator[int]:
        """Yields the modules of C whose assembler source isn't there."""
        files = self.records.all("file")
        lines = (it for it in self.records.all("line") if it.number("type", 0) == C_LINE)
        with_c: Set[int] = set()
        for file in {it.number("file") for it in lines}:
            with_c.update(files[file].numbers("mod"))
        for module in with_c:
            source = files[self.records.at("mod", module).number("file")]
            if not any(map(os.path.exists, places(source.name(), self.records.path))):
                yield module

    def module_name(self, number: int, is_input: bool = False) -> str:
        """Returns the name of a module, or of the input of the link that it is or is in."""
        module = self.records.at("mod", number)
        if "lib" not in module.fields:
            return module.name()
        library = os.path.basename(self.records.at("lib", module.number("lib")).name())
        return library if is_input else f"{library}({module.name()})"

    def place(self, record: Record) -> str:
        """Returns the place of a source. Raises a Problem if it isn't there as it was."""
        name = record.name()
        found = [it for it in places(name, self.records.path) if os.path.exists(it)]
        for it in found:
            if is_as_built(it, record):
                return it
        if not found:
            raise Problem(f"{name}: no such file; {self.records.path} names it as a source")
        raise Problem(f"{found[0]}: it has changed since {self.records.path} was written")

    def lines(self, file: int) -> List[str]:
        """Returns the lines of a source."""
        if file not in self.texts:
            self.texts[file] = text_of(self.names[file]).lines
        return self.texts[file]

    def line(self, file: int, number: int) -> str:
        """Returns a line by its number from 1."""
        lines = self.lines(file)
        if not 0 < number <= len(lines):
            raise ValueError
        return lines[number - 1]

    def image(self, segment: Record) -> Tuple[str, bytes]:
        """Returns the image of a segment: its name and its bytes."""
        named = {it.word("oname") for it in self.records.all("seg") if it.word("oname")}
        if self.given is not None and len(named) > 1:
            raise Problem(f"{self.records.path} names several images, so --image can't replace one")
        name = self.given or unquoted(segment.word("oname"))
        if name not in self.images:
            options = [name] if self.given else places(name, self.records.path)
            place = next(filter(os.path.exists, options), name)
            self.images[name] = (place, read_bytes(place))
        return self.images[name]

    def bytes_at(self, segment: Record, start: int, size: int) -> bytes:
        """Returns bytes of a segment, none if it is in no image."""
        if not segment.word("oname"):
            return b""
        at, (name, data) = segment.number("ooffs") + start, self.image(segment)
        if at + size > len(data):
            raise Problem(f"{name}: the image is smaller than {self.records.path} says")
        return data[at : at + size]
