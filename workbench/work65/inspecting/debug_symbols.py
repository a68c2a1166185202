"""The symbols of a debug file: their names, their scopes, and the lines that name them."""
from typing import Dict, Iterator, List, Tuple

from work65.formats.debug_records import DebugRecords, Record
from work65.frontend.statements import statement_in
from work65.inspecting.debug_inputs import C_LINE, DebugInputs
from work65.inspecting.debug_lines import DebugLines


class DebugSymbols:
    """The symbols of the known modules. `referred` are those that a line of a module names."""

    def __init__(self, records: DebugRecords, inputs: DebugInputs, located: DebugLines) -> None:
        self.records, self.inputs, self.located = records, inputs, located
        self.all, self.scopes = records.all("sym"), records.all("scope")
        self.modules = [self.scopes[self.chain(it)[0]].number("mod") for it in self.all]
        self.names = [self.own_name(it) for it in self.all]
        self.own = {it.number("sym") for it in self.scopes if "sym" in it.fields}
        self.imported = {it.number("exp") for it in self.all if "exp" in it.fields}
        self.referred: Dict[Tuple[int, int], List[int]] = {}
        for number, module in enumerate(self.modules):
            for line in self.all[number].numbers("ref"):
                self.referred.setdefault((line, module), []).append(number)

    def chain(self, symbol: Record) -> List[int]:
        """Returns the scopes of a symbol, its own first."""
        if "parent" in symbol.fields:
            symbol = self.all[symbol.number("parent")]
        return self.around(symbol.number("scope"))

    def around(self, scope: int) -> List[int]:
        """Returns a scope and those around it. Each has a greater number than the one around it."""
        found = [scope]
        while "parent" in self.scopes[found[-1]].fields:
            found.append(self.scopes[found[-1]].number("parent"))
            if found[-1] >= found[-2]:
                raise ValueError
        return found

    def defining(self, symbol: Record) -> List[int]:
        """Returns the assembler lines that define a symbol."""
        lines = symbol.numbers("def")
        return [it for it in lines if self.records.at("line", it).number("type", 0) != C_LINE]

    def own_name(self, symbol: Record) -> str:
        """Returns the name of a symbol without its scopes, a local one of a macro as its line has
        it."""
        name = symbol.name()
        for line in self.defining(symbol) if name.startswith("LOCAL-MACRO") else []:
            file, number = self.located.place(line)
            label = statement_in(self.inputs.line(file, number)).label
            return label.text if label else name
        return name

    def scope_name(self, scope: int) -> str:
        """Returns the full name of a scope. Scopes without a name are left out."""
        names = [self.scopes[it].name() for it in reversed(self.around(scope))]
        return "::".join(it for it in names if it and (it[0].isalpha() or it[0] == "_"))

    def full_name(self, number: int) -> str:
        """Returns the full name of a symbol."""
        symbol, own = self.all[number], self.names[number]
        if "parent" in symbol.fields:
            parent = symbol.number("parent")
            return ("" if "parent" in self.all[parent].fields else self.full_name(parent)) + own
        scope = self.scope_name(symbol.number("scope"))
        return f"{scope}::{own}" if scope else own

    def procedure(self, number: int) -> str:
        """Returns the full name of the outermost .proc around a symbol, or of its own."""
        chain = self.chain(self.all[number])
        outer = [it for it in chain if "sym" in self.scopes[it].fields]
        if outer:
            return self.scope_name(outer[-1])
        return self.full_name(number) if number in self.own else ""

    def heads(self, number: int) -> Iterator[str]:
        """Yields the first words of the lines that name a symbol."""
        for line in self.all[number].numbers("ref"):
            file, row = self.located.place(line)
            if file in self.inputs.names:
                yield statement_in(self.inputs.line(file, row)).head
