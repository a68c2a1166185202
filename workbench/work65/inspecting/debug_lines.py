"""The bytes that the assembler lines of a debug file emit, and the texts of these lines."""
from bisect import bisect_right
from dataclasses import dataclass, field
from typing import Dict, Iterator, List, Tuple

from work65.formats.debug_records import DebugRecords
from work65.frontend.macros import arguments_of, given_by, substituted
from work65.frontend.statements import statement_in
from work65.frontend.tokens import Kind
from work65.frontend.words import MACRO_BEGINS, MACRO_ENDS
from work65.inspecting.debug_inputs import C_LINE, MACRO_LINE, DebugInputs


@dataclass(eq=False)
class Emitted:
    """What a line emits at one place of a segment. `around` are the calls and repeats around it,
    the outermost first. It is a leaf if no other line emits these bytes for it."""

    line: int
    segment: int
    start: int
    end: int
    depth: int
    module: int
    around: List["Emitted"] = field(default_factory=list)
    is_leaf: bool = True
    text: str = ""


class DebugLines:
    """All that lines emit, in the order of segments and addresses. `parts` are the parts of the
    modules by the segments: where each starts, where it ends, and its module."""

    def __init__(self, records: DebugRecords, inputs: DebugInputs) -> None:
        self.records, self.inputs = records, inputs
        self.parts: Dict[int, List[Tuple[int, int, int]]] = {}
        self.macros: Dict[Tuple[int, int], List[str]] = {}
        for scope in records.all("scope"):
            if "parent" not in scope.fields:
                for segment, start, end in self.spans(scope.numbers("span")):
                    self.parts.setdefault(segment, []).append((start, end, scope.number("mod")))
        for parts in self.parts.values():
            parts.sort()
        self.emitted = sorted(
            self.known(), key=lambda it: (it.segment, it.start, -it.end, it.depth)
        )
        self.nest()
        for it in self.emitted:
            it.text = self.text(it)

    def spans(self, numbers: List[int]) -> Iterator[Tuple[int, int, int]]:
        """Yields the segment, the start and the end of each span."""
        for number in numbers:
            span = self.records.at("span", number)
            start = span.number("start")
            yield span.number("seg"), start, start + span.number("size")

    def known(self) -> Iterator[Emitted]:
        """Yields what the assembler lines of the known modules emit."""
        for number, line in enumerate(self.records.all("line")):
            if line.number("type", 0) == C_LINE:
                continue
            depth = line.number("count", 0)
            for segment, start, end in self.spans(line.numbers("span")):
                module = self.module_at(segment, start)
                if module in self.inputs.known:
                    yield Emitted(number, segment, start, end, depth, module)

    def module_at(self, segment: int, start: int) -> int:
        """Returns the module whose part of a segment includes a place."""
        parts = self.parts[segment]
        _, end, module = parts[bisect_right(parts, (start, 1 << 33, 0)) - 1]
        if start >= end:
            raise ValueError
        return module

    def nest(self) -> None:
        """Adds the lines around each line."""
        around: List[Emitted] = []
        for it in self.emitted:
            while around and (around[-1].segment, it.start < around[-1].end) != (it.segment, True):
                around.pop()
            it.around = around[:]
            if around:
                around[-1].is_leaf = False
            around.append(it)

    def place(self, line: int) -> Tuple[int, int]:
        """Returns the file and the number of a line."""
        record = self.records.at("line", line)
        return record.number("file"), record.number("line")

    def text(self, it: Emitted) -> str:
        """Returns the text of a line, in a macro with the arguments of the call."""
        file, number = self.place(it.line)
        text = self.inputs.line(file, number)
        if self.records.at("line", it.line).number("type", 0) != MACRO_LINE:
            return text
        names = self.macro(file, number)
        for call in reversed(it.around):
            body = statement_in(call.text).body
            if body and body[:1][0].text == "".join(names[:1]):
                given = given_by(names[1:], arguments_of(call.text, body[1:]))
                return substituted(text, given, is_expanded=True)
        return text

    def macro(self, file: int, number: int) -> List[str]:
        """Returns the name and the parameters of the macro around a line."""
        if (file, number) not in self.macros:
            self.macros[file, number] = []
            for before in range(number - 1, 0, -1):
                statement = statement_in(self.inputs.line(file, before))
                if statement.head in MACRO_BEGINS:
                    names = [it.text for it in statement.rest if it.kind is Kind.NAME]
                    self.macros[file, number] = names
                if statement.head in MACRO_BEGINS | MACRO_ENDS:
                    break
        return self.macros[file, number]
