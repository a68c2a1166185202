"""Which modules a link has, and what depends on that: tables of .condes, names that are defined
twice, and the numbers of .bank."""
import os
from typing import Dict, Iterable, List, Mapping, NamedTuple, Optional, Sequence, Set, Tuple

from work65.formats import objects
from work65.formats.objects import Form, Place
from work65.linking.config import Config, Table
from work65.linking.names import Names
from work65.linking.units import Archive, Module, Unit
from work65.problem import Problem
from work65.translating import forms, r65_writer
from work65.translating.cc65_objects import Expression, ImportIndex, Operation, SectionIndex
from work65.translating.translation import LinkFacts, Translation


class Begun(NamedTuple):
    """What a link wants and has before its first input, and what each table of .condes imports."""

    wanted: Sequence[str]
    defined: Iterable[str]
    imported: Mapping[int, str]


class Selection:
    """The modules of a link in order. bin65 chooses them by itself; they are known here for what
    depends on them. `chosen` has those of each input, `members` their number by library, and
    `passed` (by their ids) the members in whose place others are linked."""

    def __init__(self, inputs: Sequence[Module], begun: Begun) -> None:
        self.begun = begun
        self.units: List[Unit] = []
        self.chosen: List[List[Unit]] = []
        self.members: Dict[str, int] = {}
        self.passed: Set[int] = set()
        self.exporters: Dict[str, Unit] = {}
        self.imports: Dict[str, None] = dict.fromkeys(begun.wanted)
        self.defined = set(begun.defined)
        for it in inputs:
            self.add([it] if isinstance(it, Unit) else self.members_of(it))

    def add(self, units: List[Unit]) -> None:
        """Adds the modules of an input."""
        self.chosen.append(units)
        for unit in units:
            if unit.refusal:
                raise Problem(unit.refusal)
            self.units.append(unit)
            self.imports.update(dict.fromkeys([*unit.imports, *self.table_imports([unit])]))
            for name in unit.exports:
                self.exporters.setdefault(name, unit)
        self.defined.update(self.exporters)

    def table_imports(self, units: Sequence[Unit]) -> List[str]:
        """Returns what the tables import in which modules have an entry."""
        tables = {number for unit in units for _, number, _ in unit.condes}
        return [it for number, it in self.begun.imported.items() if number in tables and it]

    def members_of(self, archive: Archive) -> List[Unit]:
        """Returns the members that are needed at a library's place, in its order. ld65 passes over
        all members until a pass adds none; bin65 takes the first exporter of each name. They differ
        where several members export a name: those that ld65 passes by are left out."""
        found: Dict[int, Unit] = {}
        defined, wanted, seen = set(self.defined), set(self.imports) - self.defined, -1
        needed = set(wanted)
        while len(found) > seen:
            seen = len(found)
            for at, unit in enumerate(archive.units):
                if not wanted.isdisjoint(unit.exports) and at not in found:
                    found[at] = unit
                    defined.update(unit.exports)
                    needed.update(unit.imports, self.table_imports([unit]))
                    wanted = needed - defined
        chosen = [found[it] for it in sorted(found)]
        needed.intersection_update(name for it in chosen for name in it.exports)
        others = (it for at, it in enumerate(archive.units) if at not in found)
        self.passed.update(id(it) for it in others if not needed.isdisjoint(it.exports))
        if chosen:
            self.members[archive.name] = self.members.get(archive.name, 0) + len(chosen)
        return chosen

    def sizes(self, tables: Sequence[Table]) -> Dict[str, int]:
        """Returns the segments that modules and tables have, with the sums of their sizes."""
        found: Dict[str, int] = {}
        sections = [it for unit in self.units for it in unit.sections]
        sections += [(it.segment, 2 * len(self.listed(it))) for it in tables if self.has_table(it)]
        for name, size in sections:
            found[name] = found.get(name, 0) + size
        return found

    def number(self, name: str) -> Optional[int]:
        """Returns the value of an export that is a number, None if no module exports it."""
        unit = self.exporters.get(name)
        if unit is None:
            return None
        found = self.reduced(Translation(unit.object(), LinkFacts()).form(_value(unit, name)))
        if not isinstance(found, int):
            raise Problem(f"{unit.name}: {name}, which the config uses, isn't constant")
        return found

    def reduced(self, form: Form) -> Form:
        """Returns a form in which imports that are numbers are replaced by them."""
        if isinstance(form, objects.Import):
            found = self.number(form.name)
            return form if found is None else found
        if not isinstance(form, objects.Operation):
            return form
        code, parts = form.code, [self.reduced(it) for it in form.parts]
        return forms.prefixed(code, parts[0]) if len(parts) == 1 else forms.joined(code, *parts)

    def omitted(self, unit: Unit, given: Iterable[str]) -> Set[str]:
        """Returns the exports of a module that the link has already."""
        found = {name for name in unit.exports if self.exporters[name] is not unit}
        return found | set(given).intersection(unit.exports)

    def has_table(self, table: Table) -> bool:
        """Returns whether a table is made: a module imports its label, and none exports it."""
        is_complete = bool(table.label and table.segment)
        return is_complete and table.label in self.imports and table.label not in self.defined

    def listed(self, table: Table) -> List[str]:
        """Returns the names in a table, by their priorities."""
        entries = [
            (priority, os.fsencode(name), name, unit)
            for unit in self.units
            for name, number, priority in unit.condes
            if number == table.number
        ]
        for _, _, name, unit in entries:
            if self.omitted(unit, self.begun.defined) & {name}:
                raise Problem(f"{unit.name}: {name} is in a table and defined twice")
        entries.sort(key=lambda it: it[:2], reverse=table.is_decreasing)
        return [it[2] for it in entries]

    def table(self, table: Table) -> Optional[bytes]:
        """Returns the object with a table of .condes, None if it isn't made."""
        if not self.has_table(table):
            return None
        names = self.listed(table)
        values = [r65_writer.Value(r65_writer.WORD, objects.Import(it)) for it in names]
        exports = [r65_writer.Export(table.label, Place(table.segment, 0))]
        exports += [r65_writer.Export(table.length_name, len(names))] if table.length_name else []
        section = r65_writer.Section(table.segment, 1, values)
        return r65_writer.written(r65_writer.Module(table.label, (), [section], exports))


def _value(unit: Unit, name: str) -> Expression:
    """Returns the value of an export."""
    return next(it.value for it in unit.object().exports if it.name == name)


class Banks:
    """The numbers of .bank: that of the area in which the one segment of an expression runs."""

    def __init__(self, config: Config, selection: Selection, names: Names) -> None:
        self.config, self.selection, self.names = config, selection, names

    def of(self, unit: Unit, expression: Expression) -> int:
        """Returns the number of the bank of an expression in a module."""
        found = self.segments_in(unit, expression, ())
        run = next((it.run for it in self.config.rows if found == {it.name}), "")
        area = next((it for it in self.config.areas if it.name == run), None)
        if area is None or not area.bank:
            raise forms.NoValue("the argument of .bank is in no single segment with a bank")
        number = self.names.sum(area.bank, area.line)
        if number.names:
            raise forms.NoValue(f"the bank of {area.name} isn't constant")
        return number.number

    def segments_in(self, unit: Unit, value: Expression, seen: Tuple[str, ...]) -> Set[str]:
        """Returns the segments that an expression depends on, through exports that aren't seen."""
        if isinstance(value, SectionIndex):
            return {unit.object().sections[value.number].name}
        if isinstance(value, Operation):
            return {name for it in value.parts for name in self.segments_in(unit, it, seen)}
        if not isinstance(value, ImportIndex):
            return set()
        name = unit.object().imports[value.number].name
        other = self.selection.exporters.get(name)
        if other is None or name in seen:
            return set()
        return self.segments_in(other, _value(other, name), (*seen, name))
