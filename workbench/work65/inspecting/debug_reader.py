"""The lines and labels of a debug file, and the labels that each line names."""
from bisect import bisect_left, bisect_right
from typing import Dict, List, Set, Tuple

from work65.formats.debug_records import DebugRecords, Record
from work65.frontend.reach import reached
from work65.frontend.statements import parts_of, statement_in
from work65.frontend.words import MNEMONICS
from work65.inspecting.debug_inputs import DebugInputs
from work65.inspecting.debug_lines import DebugLines, Emitted
from work65.inspecting.debug_symbols import DebugSymbols
from work65.inspecting.linked import Label, Line, add_ends
from work65.instrumenting.lookup import names_in
from work65.problem import Problem


class DebugReader:
    """Reads the lines, the labels, and the labels that lines name. `groups` are the lines of the
    parts of the modules, by module and segment."""

    def __init__(self, records: DebugRecords, inputs: DebugInputs) -> None:
        self.records, self.inputs, self.located = records, inputs, DebugLines(records, inputs)
        self.symbols = DebugSymbols(records, inputs, self.located)
        self.lines: Dict[Tuple[int, int, int], Line] = {}
        self.groups: Dict[Tuple[int, int], List[Line]] = {}
        self.labels: Dict[int, Label] = {}
        self.meant: Dict[int, List[Label]] = {}
        self.matched: Set[Tuple[int, int]] = set()
        leaves = [it for it in self.located.emitted if it.is_leaf]
        for it in leaves:
            self.line(it, it.text, it.end - it.start)
        self.add_labels()
        self.add_ends()
        for it in leaves:
            self.add_named(it)
        self.add_unmatched()
        for group in self.groups.values():
            group.sort(key=lambda line: (line.address, line.size > 0))
        self.add_bodies()

    def line(self, it: Emitted, text: str, size: int) -> Line:
        """Returns the line at a place. Adds one if there is none."""
        key = (it.line, it.segment, it.start)
        if key in self.lines:
            return self.lines[key]
        (file, number), segment = self.located.place(it.line), self.records.at("seg", it.segment)
        what = (self.inputs.names[file], number, it.depth, text, statement_in(text).head)
        address = segment.number("start") + it.start
        where = (self.inputs.module_name(it.module), segment.name(), address, size)
        line = Line(*what, *where, self.inputs.bytes_at(segment, it.start, size))
        if line.is_instruction and line.is_branch != (line.data[0] & 0x1F == 0x10):
            image = self.inputs.image(segment)[0]
            raise Problem(f"{image}: not the image of {self.records.path}: see {line.place}")
        self.lines[key] = line
        self.groups.setdefault((it.module, it.segment), []).append(line)
        return line

    def add_labels(self) -> None:
        """Adds the labels to their lines."""
        for number, symbol in enumerate(self.symbols.all):
            lines, module = self.symbols.defining(symbol), self.symbols.modules[number]
            is_label = symbol.word("type") == "lab" and "seg" in symbol.fields and lines
            if is_label and module in self.inputs.known:
                segment = symbol.number("seg")
                start = symbol.number("val") - self.records.at("seg", segment).number("start")
                known = [it for it in lines if (it, segment, start) in self.lines]
                line = self.bare_line((known or lines)[0], segment, start, module)
                name, is_cheap = self.symbols.full_name(number), symbol.name().startswith("@")
                label = Label(name, line.module, line.segment, line.address, is_cheap)
                label.procedure = self.symbols.procedure(number)
                line.labels.append(label)
                self.labels[number] = label

    def bare_line(self, number: int, segment: int, start: int, module: int) -> Line:
        """Returns a line at a place, without bytes if it emits none there itself."""
        depth = self.records.at("line", number).number("count", 0)
        it = Emitted(number, segment, start, start, depth, module)
        return self.line(it, self.inputs.line(*self.located.place(number)), 0)

    def add_ends(self) -> None:
        """Adds to each label the address after its last byte."""
        labels: Dict[int, List[Label]] = {}
        for number, label in self.labels.items():
            labels.setdefault(self.symbols.modules[number], []).append(label)
        for module, own in labels.items():
            ends = {label.segment: label.address for label in own}
            for segment, parts in self.located.parts.items():
                seg = self.records.at("seg", segment)
                found = [seg.number("start") + end for _, end, it in parts if it == module]
                ends.update({seg.name(): max(found)} if found else {})
            add_ends(own, ends)

    def add_named(self, it: Emitted) -> None:
        """Adds to a line the labels that it names, also in the arguments of a call around it."""
        line, names = self.lines[it.line, it.segment, it.start], self.names_at(it)
        parts = parts_of(statement_in(it.text).rest)[: 1 if line.word in MNEMONICS else None]
        for part in parts:
            found = [names[name[-1]] for name in names_in(part) if name[-1] in names]
            chosen = [self.nearest(numbers, line) for numbers in found]
            line.named.append([label for number in chosen for label in self.meaning(number)])
            lines = (it.line, *(around.line for around in it.around))
            self.matched.update((number, one) for number in chosen for one in lines)

    def names_at(self, it: Emitted) -> Dict[str, List[int]]:
        """Returns the symbols that a line and the calls around it name."""
        found: Dict[str, List[int]] = {}
        for around in (it, *reversed(it.around)):
            for number in self.symbols.referred.get((around.line, it.module), []):
                found.setdefault(self.symbols.names[number], []).append(number)
        return found

    def nearest(self, numbers: List[int], line: Line) -> int:
        """Returns which of the symbols of a name a line means: the nearest to its operand."""
        wanted = line.address if line.operand is None else line.operand
        symbols = self.symbols.all
        return min(numbers, key=lambda number: abs(symbols[number].number("val", 0) - wanted))

    def add_unmatched(self) -> None:
        """Adds the other labels that a line or a call names, such as those of a name that a macro
        puts together. Each is there twice, so that it counts as no address."""
        for it in self.located.emitted:
            for number in self.symbols.referred.get((it.line, it.module), []):
                labels = self.meaning(number) if (number, it.line) not in self.matched else []
                if labels:
                    self.line(it, it.text, 0).named.append([*labels, *labels])

    def meaning(self, number: int) -> List[Label]:
        """Returns a label, or the labels in the expression of a constant, also in the module that
        exports it."""
        if number not in self.meant:
            found = sorted(reached([number], self.following))
            labels = [self.labels[it] for it in found if it in self.labels]
            self.meant[number] = labels or self.containing(self.symbols.all[number])
        return self.meant[number]

    def following(self, number: int) -> List[int]:
        """Returns the symbols that a constant or an import stands for."""
        symbol, module = self.symbols.all[number], self.symbols.modules[number]
        if "exp" in symbol.fields:
            return [symbol.number("exp")]
        lines = self.symbols.defining(symbol) if symbol.word("type") == "equ" else []
        return [it for line in lines for it in self.symbols.referred.get((line, module), [])]

    def containing(self, symbol: Record) -> List[Label]:
        """Returns the label at the value of a constant, if the value is an address."""
        if "seg" not in symbol.fields:
            return []
        segment = self.records.at("seg", symbol.number("seg")).name()
        labels = (it for it in self.labels.values() if it.segment == segment)
        return [it for it in labels if it.address <= symbol.number("val") < it.end][:1]

    def add_bodies(self) -> None:
        """Adds to the label of each .proc its lines in the same segment."""
        symbols = self.symbols
        inner = {label: symbols.chain(symbols.all[it]) for it, label in self.labels.items()}
        for number, scope in enumerate(symbols.scopes):
            label = self.labels.get(scope.number("sym")) if "sym" in scope.fields else None
            if label is None:
                continue
            segment = symbols.all[scope.number("sym")].number("seg")
            group = self.groups[scope.number("mod"), segment]
            addresses = [line.address for line in group]
            first, size = bisect_left(addresses, label.address), self.size_in(scope, segment)
            for line in group[first : bisect_right(addresses, label.address + size)]:
                is_inside = any(it is label or number in inner[it] for it in line.labels)
                if is_inside or line.size and line.address < label.address + size:
                    label.body.append(line)

    def size_in(self, scope: Record, segment: int) -> int:
        """Returns the number of bytes of a scope in a segment."""
        spans = self.located.spans(scope.numbers("span"))
        return sum(end - start for it, start, end in spans if it == segment)
