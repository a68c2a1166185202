"""The debug file of a build, in version 2 of the format of ld65 --dbgfile."""
import os
from dataclasses import dataclass, field
from typing import Dict, Iterable, List, Optional, Sequence, Tuple

from work65.formats.objects import Place
from work65.frontend.link_script import OUTPUT
from work65.instrumenting.address_sizes import AddressSizes
from work65.instrumenting.build import Build, Unit
from work65.instrumenting.located import FileReading, LocatedLine, Scope, Symbol, LocatedModule
from work65.instrumenting.resolve import Resolver
from work65.instrumenting.sources import Source

# How wide an element of a list of data is, and how a debug file writes its type: bytes, words, pointers, words with the high
# byte first.
TYPES = {".byte": (1, "20"), ".byt": (1, "20"), ".word": (2, "21"), ".addr": (2, "4100"), ".dbyt": (2, "51")}
# The segments that each module of ca65 has, in its order.
FIRST = ("CODE", "RODATA", "BSS", "DATA", "ZEROPAGE")
LineKey = Tuple[int, int, int, bool]
SpanKey = Tuple[int, int, int]


@dataclass
class Numbered:
    """The entries of a kind, by their numbers."""

    kind: str
    lines: List[str] = field(default_factory=list)

    def add(self, text: str) -> int:
        """Adds an entry. Returns its number."""
        self.lines.append(f"{self.kind}\tid={len(self.lines)},{text}")
        return len(self.lines) - 1


def type_of(line: LocatedLine) -> str:
    """Returns the type of a line's data, an array of elements. Empty if it has none."""
    width, element = TYPES.get(line.word, (0, ""))
    if not width or not line.size:
        return ""
    count = line.size // width
    length = max((count.bit_length() + 7) // 8, 1)
    return f"{0x7F + length:02X}{count.to_bytes(length, 'little').hex().upper()}{element}"


def ids(numbers: Iterable[int]) -> str:
    """Returns a list of entry numbers as text."""
    return "+".join(map(str, numbers))


class DebugFile:
    """Collects the entries."""

    def __init__(self, build: Build) -> None:
        self.build, self.layout = build, build.layout
        self.kinds = {it: Numbered(it) for it in ("file", "lib", "line", "mod", "scope", "seg", "span", "sym", "type")}
        self.segments = {it.name: number for number, it in enumerate(self.layout.map.rows)}
        self.files: Dict[str, int] = {}
        self.file_modules: List[List[int]] = []
        self.sources: List[Source] = []
        self.lines: Dict[LineKey, int] = {}
        self.line_spans: List[Dict[int, None]] = []
        self.spans: Dict[SpanKey, int] = {}
        self.libraries: Dict[str, int] = {}
        self.types: Dict[str, int] = {}

    def text(self) -> str:
        """Returns the text of the file."""
        for it in self.layout.map.rows:
            self.segment(it.name)
        for number, unit in enumerate(self.build.units):
            if unit.located is not None:
                ModuleWriter(self, number, unit, unit.located).add()
        for number, (source, modules) in enumerate(zip(self.sources, self.file_modules)):
            self.file(number, source, modules)
        for key, number in self.lines.items():
            self.line(key, self.line_spans[number])
        kinds = self.kinds
        counts = ",".join(f"{it}={len(kinds[it].lines)}" for it in kinds)
        head = ["version\tmajor=2,minor=0", f"info\tcsym=0,{counts}"]
        return "".join(f"{it}\n" for it in [*head, *(line for kind in kinds.values() for line in kind.lines)])

    def segment(self, name: str) -> None:
        """Adds a segment of the script."""
        placed, entry = self.layout.map.row(name), self.layout.script.segment(name)
        kind = entry.kind if entry else "rw"
        size = "zeropage" if kind == "zp" else "absolute"
        text = f'name="{name}",start=0x{placed.run:06X},size=0x{placed.size:04X},addrsize={size},type={"ro" if kind == "ro" else "rw"}'
        at = self.layout.place_in_file(name)
        if at is not None and placed.size:
            file = self.layout.file_of(name)
            text += f',oname="{self.build.wanted.image if file == OUTPUT else file}",ooffs={at}'
        self.kinds["seg"].add(text)

    def file_number(self, source: Source, module: int) -> int:
        """Returns the number of a file that a module reads."""
        if source.place not in self.files:
            self.files[source.place] = len(self.sources)
            self.sources.append(source)
            self.file_modules.append([])
        number = self.files[source.place]
        if module not in self.file_modules[number]:
            self.file_modules[number].append(module)
        return number

    def file(self, number: int, source: Source, modules: Sequence[int]) -> None:
        """Adds a file."""
        try:
            found = os.stat(source.place)
            size, time = found.st_size, int(found.st_mtime)
        except OSError:
            size, time = 0, 0
        self.kinds["file"].add(f'name="{source.name}",size={size},mtime=0x{time & 0xFFFFFFFF:08X},mod={ids(modules)}')

    def line_number(self, key: LineKey) -> int:
        """Returns the number of a line."""
        if key not in self.lines:
            self.lines[key] = len(self.lines)
            self.line_spans.append({})
        return self.lines[key]

    def line(self, key: LineKey, spans: Iterable[int]) -> None:
        """Adds a line with its spans."""
        file, line, depth, in_macro = key
        text = f"file={file},line={line}" + (",type=2" if in_macro else "") + (f",count={depth}" if depth else "")
        self.kinds["line"].add(text + (f",span={ids(spans)}" if spans else ""))

    def span(self, segment: str, start: int, size: int, kind: str) -> int:
        """Returns the number of a span of a segment, which may have a type."""
        key = (self.segments[segment], start, size)
        if key not in self.spans:
            said = f",type={self.type(kind)}" if kind else ""
            self.spans[key] = self.kinds["span"].add(f"seg={key[0]},start={start},size={size}{said}")
        return self.spans[key]

    def type(self, value: str) -> int:
        """Returns the number of a type."""
        if value not in self.types:
            self.types[value] = self.kinds["type"].add(f'val="{value}"')
        return self.types[value]

    def library(self, module: str) -> Optional[int]:
        """Returns the number of the library of a module `library(member)`, None for another module."""
        if not module.endswith(")"):
            return None
        name = module[: module.index("(")]
        if name not in self.libraries:
            self.libraries[name] = self.kinds["lib"].add(f'name="{name}"')
        return self.libraries[name]


class ModuleWriter:
    """Adds the entries of one module."""

    def __init__(self, file: DebugFile, number: int, unit: Unit, module: LocatedModule) -> None:
        self.file, self.number, self.unit, self.module = file, number, unit, module
        self.resolver = Resolver(file.build, unit)
        self.sizes = None if unit.closure is None else AddressSizes(file.layout, unit.closure, module)
        self.numbers: Dict[str, int] = {}
        self.scope_of = {it.label: it for it in module.scopes if it.label is not None}
        self.first_scope = len(file.kinds["scope"].lines)
        self.first_symbol = len(file.kinds["sym"].lines)

    def add(self) -> None:
        """Adds all entries."""
        library = self.file.library(self.unit.module)
        name = self.unit.module[self.unit.module.find("(") + 1 :].rstrip(")")
        text = f'name="{name}",file={self.file.file_number(self.module.reading.source, self.number)}'
        self.file.kinds["mod"].add(text + ("" if library is None else f",lib={library}"))
        self.files(self.module.reading)
        self.lines()
        for scope in self.module.scopes:
            self.scope(scope)
        for symbol in self.module.symbols:
            self.symbol(symbol)

    def files(self, reading: FileReading) -> None:
        """Adds the files that were read, also those that emit nothing."""
        waiting = [reading]
        while waiting:
            it = waiting.pop()
            self.file.file_number(it.source, self.number)
            for below in it.below.values():
                waiting += [one for one in below if isinstance(one, FileReading)]

    def lines(self) -> None:
        """Adds the lines that emit something, and calls and repeats with the spans of their lines."""
        offsets, spans = self.resolver.offsets, self.file.line_spans
        for line in self.module.lines:
            number = self.line_of(line.source, line.line, line.depth, line.in_macro)
            if line.size:
                name, offset = line.place
                spans[number][self.file.span(name, offsets[name] + offset, line.size, type_of(line))] = None
        for it in self.module.expansions:
            number = self.line_of(it.source, it.line, it.depth, it.in_macro)
            self.put(number, self.runs(it.lines))

    def line_of(self, source: Source, line: int, depth: int, in_macro: bool) -> int:
        """Returns the number of a line."""
        file = self.numbers.get(source.place)
        if file is None:
            file = self.numbers[source.place] = self.file.file_number(source, self.number)
        return self.file.line_number((file, line, depth, in_macro))

    def put(self, line: int, spans: Sequence[int]) -> None:
        """Adds spans to a line, each once."""
        self.file.line_spans[line].update(dict.fromkeys(spans))

    def runs(self, lines: Sequence[LocatedLine]) -> List[int]:
        """Returns the spans of lines. Adjacent bytes share a span."""
        found: Dict[str, List[List[int]]] = {}
        for line in lines:
            if line.size:
                start = line.place.offset
                runs = found.setdefault(line.place.section, [])
                if runs and runs[-1][1] == start:
                    runs[-1][1] += line.size
                else:
                    runs.append([start, start + line.size])
        offsets = self.resolver.offsets
        return [self.file.span(name, offsets[name] + it[0], it[1] - it[0], "") for name, runs in found.items() for it in runs]

    def scope(self, scope: Scope) -> None:
        """Adds a scope."""
        lines = self.module.lines[scope.first : scope.last]
        size = self.size_of_scope(scope, lines)
        number = len(self.file.kinds["scope"].lines) - self.first_scope
        name = scope.name or (f"$anon-SCOPE-{number:04X}" if number else "")
        text = f'name="{name}",mod={self.number}'
        if scope.parent is not None:
            text += ",type=scope"
        text += f",size={size}" if size else ""
        if scope.parent is not None:
            text += f",parent={self.first_scope + scope.parent}"
        if scope.label is not None:
            text += f",sym={self.first_symbol + scope.label}"
        spans = self.runs(lines)
        self.file.kinds["scope"].add(text + (f",span={ids(spans)}" if spans else ""))

    def size_of_scope(self, scope: Scope, lines: Sequence[LocatedLine]) -> int:
        """Returns the size of a scope in the segment in which it was opened, or else in the first one with bytes of it."""
        sizes: Dict[str, int] = {}
        for it in lines:
            sizes[it.place.section] = sizes.get(it.place.section, 0) + it.size
        return next((sizes[it] for it in (scope.section, *FIRST, *sizes) if sizes.get(it)), 0)

    def size_of(self, number: int, symbol: Symbol) -> int:
        """Returns the size of a symbol: that of its scope or line."""
        scope = self.scope_of.get(number)
        if scope is not None:
            return sum(it.size for it in self.module.lines[scope.first : scope.last])
        return 0 if symbol.at is None else self.module.lines[symbol.at].size

    def symbol(self, symbol: Symbol) -> None:
        """Adds a label or a constant."""
        number = len(self.file.kinds["sym"].lines) - self.first_symbol
        value, place = self.resolver.value(symbol.value), symbol.value if isinstance(symbol.value, Place) else None
        depth, in_macro = 0, False
        if symbol.at is not None:
            depth, in_macro = self.module.lines[symbol.at].depth, self.module.lines[symbol.at].in_macro
        size = self.size_of(number, symbol)
        address_size = self.sizes.of_symbol(symbol, value or 0) if self.sizes else "absolute"
        text = f'name="{symbol.name}",addrsize={address_size}' + (f",size={size}" if size else "")
        if symbol.region is not None:
            text += f",parent={self.first_symbol + symbol.region}"
        else:
            text += f",scope={self.first_scope + symbol.scope}"
        text += f",def={self.line_of(symbol.source, symbol.line, depth, in_macro)}"
        text += "" if value is None else f",val=0x{value & 0xFFFFFFFF:X}"
        text += "" if place is None else f",seg={self.file.segments[place.section]}"
        self.file.kinds["sym"].add(f"{text},type={'equ' if symbol.is_equate else 'lab'}")


def debug_file(build: Build) -> str:
    """Returns the text of the debug file."""
    return DebugFile(build).text()
