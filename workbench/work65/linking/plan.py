"""A link of cc65's, translated for bin65: the script, the object with the linker's own names, the
objects and the libraries."""
import os
import re
from functools import partial
from typing import Dict, List, Mapping, NamedTuple, Set, Tuple

from work65.formats import objects
from work65.formats.objects import Form
from work65.frontend.files import read_text
from work65.linking.call import Call
from work65.linking.config import Config, Given, read_config
from work65.linking.layout import Part, laid_out
from work65.linking.linear import Linear, read
from work65.linking.names import Names, names_in
from work65.linking.script import Needs, files_of, script_of
from work65.linking.selection import Banks, Begun, Selection
from work65.linking.units import Archive, Unit, modules_of
from work65.problem import Problem
from work65.translating import forms, r65_writer
from work65.translating.r65_libraries import read_index, write_library
from work65.translating.translation import LinkFacts, translated

SYMBOLS = "symbols.o"
GREATEST = 0xFFFFFFFF
PLAIN = re.compile(r"[^0-9A-Za-z._-]")
# How the names of offsets in files end. They need names of rows: so they are there if wanted.
OFFSET = "_FILEOFFS__"


class Plan(NamedTuple):
    """A link for bin65: the script and the inputs by their files; and what is needed to read what
    bin65 makes: the modules by the names that bin65 gives them, the parts of areas, for each part
    with bytes the file that bin65 writes, and the choice of modules."""

    call: Call
    config: Config
    script: str
    inputs: List[Tuple[str, bytes]]
    units: Dict[str, Unit]
    parts: List[Part]
    files: Dict[str, str]
    selection: Selection

    @property
    def made(self) -> List[str]:
        """Returns the files that the link makes, by the names that the config gives."""
        return list(dict.fromkeys(it.file for it in self.config.areas if it.file))

    def label(self, sizes: Mapping[str, int]) -> str:
        """Returns the name of the link in messages: its output, or its first file with bytes."""
        named = [it for it in (self.call.output, *self.made) if sizes.get(it)]
        return (named or [self.call.output])[0]


def plan_of(call: Call) -> Plan:
    """Reads the config and the inputs of a link, and translates them. Raises a Problem for what
    bin65 can't do."""
    given = Given(call.config, call.output, call.start)
    try:
        return _Planner(call, read_config(read_text(call.config), given)).plan()
    except RecursionError:
        raise Problem(f"{call.config}: a value is nested too deep, or needs itself") from None


class _Planner:
    """Translates one link."""

    def __init__(self, call: Call, config: Config) -> None:
        self.call, self.config = call, config
        exported = [it.name for it in config.symbols if it.kind == "EXPORT"]
        self.wanted = [it.name for it in config.symbols if it.kind == "IMPORT"]
        self.wanted += [*call.imports, *names_in(config), *(it for _, it in config.atari.calls)]
        self.wanted += [config.atari.start] if config.atari.start else []
        self.modules = modules_of(call.inputs)
        self.given = {*call.symbols, *exported}
        imported = {it.number: it.imported for it in config.tables}
        self.selection = Selection(self.modules, Begun(self.wanted, self.given, imported))
        self.sizes = self.selection.sizes(config.tables)
        known = {it.name for it in config.rows}
        for name, size in self.sizes.items():
            if size and name not in known:
                raise Problem(f"{call.config}: SEGMENTS has no row for {name}, which has bytes")
        symbols = {it.name: it.value for it in config.symbols if it.kind != "IMPORT"}
        self.names = Names(call.config, call.symbols, symbols, self.selection.number)
        self.layout = laid_out(config, self.sizes, self.names)
        self.names.takes_places = True
        self.weak = self.weak_numbers()

    def plan(self) -> Plan:
        """Returns the whole."""
        exported = self.exported()
        inputs, units = self.inputs(self.symbols(exported))
        files = files_of(self.layout.parts, self.call.output, self.config.formats)
        rows = (it.name for it in self.config.rows if it.name in self.sizes)
        order = list(dict.fromkeys([*rows, *self.sizes]))
        needs = Needs(order, {name for it in exported.values() for name in it.names}, self.weak)
        script = script_of(self.layout.parts, files, needs)
        parts = self.layout.parts
        return Plan(self.call, self.config, script, inputs, units, parts, files, self.selection)

    def weak_numbers(self) -> Dict[str, int]:
        """Returns the weak symbols that are numbers: bin65 decides whether they hold."""
        found = {}
        for it in self.config.symbols:
            if it.kind == "WEAK" and it.name not in self.call.symbols:
                value = read(it.value, self.names)[0]
                if value is not None and not value.names and 0 <= value.number <= GREATEST:
                    found[it.name] = value.number
        return found

    def exported(self) -> Dict[str, Linear]:
        """Returns the names that the linker itself exports, with their values."""
        found = {
            name: it
            for name, it in self.layout.defined.items()
            if name in self.selection.imports or not name.endswith(OFFSET)
        }
        known = {*self.weak, *self.selection.exporters}
        for it in self.config.symbols:
            if it.kind == "EXPORT" or it.kind == "WEAK" and it.name not in known:
                found[it.name] = self.names.sum(it.value, it.line)
        return {**found, **{name: Linear(number) for name, number in self.call.symbols.items()}}

    def symbols(self, exported: Mapping[str, Linear]) -> bytes:
        """Returns the object with the names that the linker itself has, and with what the config
        and options import."""
        exports = [r65_writer.Export(name, _form(it)) for name, it in exported.items()]
        wanted = dict.fromkeys(self.wanted)
        imports = [it for it in wanted if it not in exported and it not in self.names.placed]
        return r65_writer.written(r65_writer.Module("the config", imports, (), exports))

    def inputs(self, symbols: bytes) -> Tuple[List[Tuple[str, bytes]], Dict[str, Unit]]:
        """Returns the inputs by their files, and the modules by the names that bin65 gives them.
        What a table imports is imported before the first input with an entry of the table."""
        found = [(SYMBOLS, symbols)]
        units: Dict[str, Unit] = {}
        for at, it in enumerate(self.modules):
            file = f"{at}-{PLAIN.sub('_', os.path.basename(it.name))}"
            imports = self.selection.table_imports(self.selection.chosen[at])
            if imports:
                module = r65_writer.Module("the config", imports)
                found.append((f"{at}-imports.o", r65_writer.written(module)))
            if isinstance(it, Unit):
                found.append((file, self.translated(it)))
                units[file] = it
            else:
                found.append((file, self.library(it)))
                units.update({f"{file}({name})": one for name, one in zip(it.names(), it.units)})
        for table in self.config.tables:
            data = self.selection.table(table)
            if data is not None:
                found.append((f"{PLAIN.sub('_', table.label)}.o", data))
        return found, units

    def translated(self, unit: Unit) -> bytes:
        """Translates a module with what the link decides about it."""
        banks = Banks(self.config, self.selection, self.names)
        return translated(unit.object(), LinkFacts(self.omitted(unit), (), partial(banks.of, unit)))

    def omitted(self, unit: Unit) -> Set[str]:
        """Returns the exports of a module that are left out, as others have them."""
        return self.selection.omitted(unit, self.given) if self.call.allows_twice else set()

    def library(self, archive: Archive) -> bytes:
        """Returns a library, in which members that depend on the link are translated for it, and
        without those that ld65 passes by."""
        chosen, passed = {id(it) for it in self.selection.units}, self.selection.passed
        special = {
            at
            for at, it in enumerate(archive.units)
            if id(it) in passed or id(it) in chosen and (it.has_bank or self.omitted(it))
        }
        if not special and len(archive.libraries) == 1:
            return archive.libraries[0]
        entries = [(data, it) for data in archive.libraries for it in read_index(data)]
        members = []
        for at, (name, (data, it)) in enumerate(zip(archive.names(), entries)):
            unit, body = archive.units[at], data[it.start : it.start + it.size]
            if id(unit) not in passed:
                members.append((name, self.translated(unit) if at in special else body))
        return write_library(members, archive.name)


def _form(value: Linear) -> Form:
    """Returns a sum as a form."""
    found: Form = value.number
    for name, count in value.names.items():
        term: Form = objects.Import(name)
        term = term if count == 1 else forms.joined(forms.TIMES, term, count)
        found = term if found == 0 else forms.joined(forms.PLUS, found, term)
    return found
