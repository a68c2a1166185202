"""Makes a linked program from a build of bin65."""
from typing import Dict, List, Sequence

from work65.formats.objects import Place
from work65.frontend.files import read_text
from work65.frontend.statements import parts_of
from work65.frontend.words import MNEMONICS, STORAGE
from work65.inspecting.areas import areas_of, needed_by
from work65.inspecting.linked import Label, Line, LinkedModule, LinkedProgram, add_ends
from work65.instrumenting.build import Build, Unit, is_linked_as_it_is
from work65.instrumenting.layout import UNWRITTEN
from work65.instrumenting.located import LocatedLine, LocatedModule, Symbol
from work65.instrumenting.lookup import Lookup, names_in
from work65.instrumenting.names import full_name, scope_name
from work65.instrumenting.resolve import Resolver
from work65.instrumenting.sources import source_line


class ModuleReader:
    """Reads one module of a build. `exporters` are the modules that export names, by the names."""

    def __init__(self, build: Build, unit: Unit, module: LocatedModule) -> None:
        self.unit, self.module = unit, module
        self.resolver, self.lookup = Resolver(build, unit), Lookup(module)
        self.exporters: Dict[str, "ModuleReader"] = {}
        self.labels: Dict[int, Label] = {}
        self.meant: Dict[int, List[Label]] = {}
        self.lines = [self.line(located) for located in module.lines]
        for number, symbol in enumerate(module.symbols):
            if symbol.at is not None:
                self.labels[number] = self.label(symbol, self.lines[symbol.at])
        self.add_bodies()
        self.add_ends()

    def line(self, located: LocatedLine) -> Line:
        """Returns a line at its address."""
        place, size = located.place, located.size
        what = (located.source.name, located.line, located.depth, located.text, located.word)
        where = (self.unit.module, place.section, self.resolver.address(place), size)
        return Line(*what, *where, self.resolver.bytes_at(place, size))

    def label(self, symbol: Symbol, line: Line) -> Label:
        """Returns a label of a line."""
        procedure, scope = "", symbol.scope if self.module.scopes else None
        while scope is not None:
            if self.module.scopes[scope].is_proc:
                procedure = scope_name(self.module, scope)[:-2]
            scope = self.module.scopes[scope].parent
        name, is_cheap = full_name(self.module, symbol), symbol.name.startswith("@")
        label = Label(name, line.module, line.segment, line.address, is_cheap, procedure)
        line.labels.append(label)
        return label

    def add_bodies(self) -> None:
        """Adds to the label of each .proc its lines in the same segment."""
        for scope in self.module.scopes:
            if scope.is_proc and scope.label is not None:
                label, lines = self.labels[scope.label], self.lines[scope.first : scope.last]
                label.body = [line for line in lines if line.segment == label.segment]
                label.procedure = label.procedure or label.name

    def add_ends(self) -> None:
        """Adds to each label the address after its last byte."""
        parts = self.unit.linked.parts if self.unit.linked else []
        ends = {it.segment: self.resolver.runs[it.segment] + it.size for it in parts}
        add_ends(list(self.labels.values()), ends)

    def add_named(self) -> None:
        """Adds to each line the labels that it names."""
        scopes = [0] * len(self.lines)
        for number, scope in enumerate(self.module.scopes):
            scopes[scope.first : scope.last] = [number] * (scope.last - scope.first)
        plain = (number for number, label in self.labels.items() if not label.is_cheap)
        regions = {self.module.symbols[number].at: number for number in plain}
        region = -1
        for number, line in enumerate(self.lines):
            region = regions.get(number, region)
            if line.word in MNEMONICS or line.word in STORAGE:
                line.named = self.named(line, scopes[number], region)

    def named(self, line: Line, scope: int, region: int) -> List[List[Label]]:
        """Returns the labels that each element of a line names."""
        read = source_line(line.text, True) if line.depth else source_line(line.text)
        parts = parts_of(read.statement.rest)[: 1 if line.word in MNEMONICS else None]
        names = ([self.meaning(name, scope, region) for name in names_in(part)] for part in parts)
        return [[label for labels in found for label in labels] for found in names]

    def meaning(self, name: Sequence[str], scope: int, region: int = -1) -> List[Label]:
        """Returns the labels that a name means, also in the module that exports it."""
        number = self.lookup.found(name, scope, region)
        if number is not None:
            return self.of_symbol(number)
        exporter = self.exporters.get(name[-1])
        number = exporter.lookup.found(name[-1:], 0) if exporter else None
        return exporter.of_symbol(number) if exporter and number is not None else []

    def of_symbol(self, number: int) -> List[Label]:
        """Returns a label, or the labels in the expression of a constant."""
        if number in self.labels:
            return [self.labels[number]]
        if number not in self.meant:
            self.meant[number] = []  # until its expression is read
            symbol = self.module.symbols[number]
            names = names_in(symbol.source.line(symbol.line).statement.body[2:])
            found = [label for name in names for label in self.meaning(name, symbol.scope)]
            self.meant[number] = found or self.at(symbol.value)
        return self.meant[number]

    def at(self, value: object) -> List[Label]:
        """Returns the label at the value of a constant, such as one that a macro defines."""
        if not isinstance(value, Place):
            return []
        address = self.resolver.address(value)
        labels = (it for it in self.labels.values() if it.segment == value.section)
        return [it for it in labels if it.address <= address < it.end][:1]


def linked_program(build: Build) -> LinkedProgram:
    """Returns the linked program of a build."""
    program, text = LinkedProgram(), read_text(build.wanted.script)
    program.areas, program.needed = areas_of(build.layout, text), sorted(set(needed_by(text)))
    segments = build.layout.script.segments
    program.variables = [segment.name for segment in segments if segment.kind in UNWRITTEN]
    program.unknown = list(filter(is_linked_as_it_is, build.wanted.sources))
    readers = [ModuleReader(build, unit, unit.located) for unit in build.units if unit.located]
    exporters = {name: reader for reader in readers for name in reader.unit.exports}
    for reader in readers:
        unit, reader.exporters = reader.unit, exporters
        reader.add_named()
        program.lines += reader.lines
        program.labels += reader.labels.values()
        program.modules.append(LinkedModule(unit.module, unit.exports, unit.imports))
        for source in unit.closure.sources.values() if unit.closure else ():
            program.texts[source.name] = [line.text for line in source.lines]
    return program
