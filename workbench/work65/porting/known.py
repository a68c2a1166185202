"""The state of a module while it is walked: its files, its symbols, and queries."""
import os
from typing import Dict, FrozenSet, List, Optional, Sequence, Set, Tuple

from work65.frontend import words
from work65.frontend.expression import value
from work65.frontend.statements import Statement, parts_of, statement_in
from work65.frontend.tokens import Kind, Token
from work65.habits.habit import Finding
from work65.porting import beyond, defines
from work65.porting.characters import of_target
from work65.porting.context import Context, RewrittenLine
from work65.porting.expansion import HARD, Macro, hard_macros
from work65.porting.facts import facts_of, star_in
from work65.porting.functions import Folder
from work65.porting.line import Unportable
from work65.porting.logical import Logical
from work65.porting.project import Project

BYTES = words.MNEMONICS | words.DATA | {".asciiz", ".incbin", ".tag", ".faraddr", ".lobytes", ".hibytes", ".bankbytes"}
PLACING = words.MNEMONICS | words.PLACING | words.UNDOCUMENTED | {".proc"}
# Directives that test names without using them.
ASKING = frozenset((".ifdef", ".ifndef", ".ifblank", ".ifnblank"))


class ModuleState:
    """A module, with the symbols seen so far."""

    def __init__(self, project: Project, module: str) -> None:
        self.project = project
        self.module = module
        self.sized_names = project.sized_names(module)
        self.context = Context(of_target(project.target), set(project.features), processor=project.processor)
        self.context.size_name = project.size_name
        self.folder = Folder(self.context, self.sized, self.is_defined, self.bank)
        if project.is_fixed:
            self.context.constants.update({(name,): number for name, number in project.names.items()})
            self.context.labels.update({(name,): "" for name in project.names})
        self.sizes: Dict[Tuple[str, ...], str] = {}
        self.depth = 0
        self.rows: List[RewrittenLine] = []
        self.path = module
        self.lines: List[Logical] = []
        self.others: Optional[Tuple[List[Logical], Dict[int, List[str]]]] = None
        self.screen = ""
        self.given: Dict[int, int] = {}
        self.expanding = self.number = self.here = self.blocks = 0
        self.late: List[str] = []
        self.is_placed = False
        self.hard_key: Tuple[int, int, str, int] = (0, 0, "", 0)
        self.hard_names: FrozenSet[str] = frozenset()
        self.imported: Set[str] = set()
        self.deferred: List[Tuple[str, str, int, Unportable]] = []

    @property
    def hard(self) -> FrozenSet[str]:
        """The macros that have to be expanded."""
        macros, texts, project = self.context.macros, self.context.defines, self.project
        key = (len(macros), sum(len(it.lines) for it in macros.values()), self.screen, len(texts))
        if key != self.hard_key:
            also = {name for name, it in texts.items() if any(one.lower in HARD for one in it.tokens)}
            self.hard_key = key
            self.hard_names = hard_macros(macros, frozenset(also | ({"scrcode"} if self.screen else set())), project.spread.macros)
        return self.hard_names

    @property
    def has_escapes(self) -> bool:
        """Returns whether a backslash in a string takes the next character with it."""
        return "string_escapes" in self.context.features

    def cannot(self, number: int, why: Unportable) -> None:
        """Notes a line that can't be converted; that of a macro counts only where a call of it stays."""
        if self.context.macro is None:
            self.project.cannot(self.path, number, why)
        else:
            self.deferred.append((self.context.macro, self.path, number, why))

    def bank(self, name: str) -> Optional[int]:
        """Returns the bank that the script gives to the area of a label."""
        places, path = self.project.label_segments.get(self.module, {}), self.context.path
        parts = tuple(it for it in name.split("::") if it)
        segment = self.context.segment if name == "*" else None
        for depth in range(0 if name.startswith("::") else len(path), -1, -1):
            segment = segment or places.get(path[:depth] + parts)
        if segment is None:
            others = {it[parts] for it in self.project.label_segments.values() if it.get(parts)}
            segment = others.pop() if len(others) == 1 else None
        return None if segment is None else self.project.banks.get(segment)

    def unique(self, at: int) -> str:
        """Returns a name that no other line has, nor this one a second time."""
        number = self.lines[at].number
        self.given[number] = self.given.get(number, 0) + 1
        again = f"_{self.given[number]}" if self.given[number] > 1 else ""
        return f"{os.path.basename(self.path)}_{number}{again}"

    def is_defined(self, name: str) -> Optional[bool]:
        """Returns whether a name is defined here, where that is so in every assembly; a scope that has used the name hides it, as in cc65."""
        known = self.project.is_target_name(name)
        if known is not None:
            return known
        context, path = self.context, self.context.path
        for depth in range(len(path), -1, -1):
            key = path[:depth] + (name,)
            if key in context.variables or key in context.labels and key not in context.uncertain:
                return True
            if depth and name in context.scopes[depth - 1].used or key in context.labels:
                return None
        if name in self.project.guards:
            return name in context.defines
        return False if self.project.is_absent(name) else None

    def note(self, statement: Statement) -> None:
        """Notes what a line defines, opens and closes."""
        context, head, rest = self.context, statement.head, statement.rest
        self.note_beyond(statement)
        if context.macro is not None:
            return
        if statement.label is not None and statement.label.kind is Kind.NAME:
            self.note_label(statement.label.text)
        elif statement.label is not None and statement.label.kind is Kind.CHEAP:
            context.cheap.add(statement.label.text)
        if rest and rest[0].text in ("=", ":=") and statement.body[0].kind is Kind.NAME:
            self.note_constant(statement.body[0].text, rest[1:])
        elif head in words.REPEAT_BEGINS:
            context.repeats.append(rest[-1].text if rest else "")
        elif head in words.REPEAT_ENDS and context.repeats:
            context.repeats.pop()
        else:
            self.note_segment(statement)
        if statement.label is not None or head in PLACING or statement.body and statement.body[0].text in context.macros:
            self.note_place(statement)
        if head in ASKING:
            return
        called = context.macros.get(statement.body[0].text) if statement.body else None
        if called is not None:
            self.note_call(called, rest)
        if context.scopes:
            used = context.scopes[-1].used
            names = {it.text for at, it in enumerate(rest) if it.kind is Kind.NAME and not _is_asked(rest, at)}
            used |= {it for it in names if it.lower() not in words.REGISTERS} - context.defines.keys()
            if called is not None:
                used |= called.names - context.defines.keys()

    def note_beyond(self, statement: Statement) -> None:
        """Notes a line with a number that cc65's linker takes otherwise, if it computes the value."""
        word = beyond.word_in(statement, self.context.value)
        if word and statement.head not in words.CONDITIONS:
            path, number = self.project.texts[self.path].path, self.lines[self.here].number
            self.project.beyond.append(Finding(path, number, word, beyond.HABIT, beyond.NOTE))

    def note_place(self, statement: Statement) -> None:
        """Notes that the segment has something, and whether it surely has bytes."""
        project, segment, head = self.project, self.context.segment, statement.head
        self.is_placed = True
        if not all(it.is_live is True for it in self.context.blocks):
            project.segments_perhaps.add(segment)
            return
        project.segments_there.add(segment)
        room = value(parts_of(statement.rest)[0], self.context.value) if head == ".res" and statement.rest else None
        if head in BYTES or room:
            project.segments.add(segment)

    def note_label(self, name: str) -> None:
        """Notes a label, at which a region of cheap labels begins."""
        context = self.context
        key = context.path + (name,)
        context.labels[key] = context.segment
        if self.is_uncertain(name):
            context.uncertain.add(key)
        context.cheap, context.cheap_before, context.cheap_used = set(), set(), set()
        context.cheap_constants, context.region, context.part = {}, name, 0

    def note_call(self, called: Macro, rest: Sequence[Token]) -> None:
        """Notes the labels that a call defines which stays."""
        given = dict(zip(called.parameters, (it[0].text if len(it) == 1 else "" for it in parts_of(rest))))
        for name in called.labels:
            name = given.get(name, name)
            if name and name not in called.locals and name[0] != "@" and name[0] != ":":
                self.note_label(name)

    def is_uncertain(self, name: str) -> bool:
        """Returns whether a name defined here may be undefined or mean something else in another
        assembly. In its own .ifndef a name is sure if no -D can give it."""
        project = self.project
        open_blocks = [it for it in self.context.blocks if it.is_live is None]
        is_given = name in project.names or bool(open_blocks) and name not in project.guards
        return is_given and not project.is_fixed or any(it.guarded != name for it in open_blocks)

    def note_constant(self, name: str, tokens: Sequence[Token]) -> None:
        """Notes a constant, and whether its value is the same in every assembly."""
        context = self.context
        key = context.path + (name,)
        found = value(tokens, context.value)
        context.constants[key] = found if context.constants.get(key, found) == found else None
        if self.is_uncertain(name) or found is not None and value(tokens, context.certain) is None:
            context.uncertain.add(key)
        context.labels.setdefault(key, self.segment_of(tokens))
        self.end_part()

    def segment_of(self, tokens: Sequence[Token]) -> str:
        """Returns the segment in which an expression of one label is an address, if it is known."""
        labels, context = self.context.labels, self.context
        names = [it.text for it in tokens if it.kind in (Kind.NAME, Kind.CHEAP, Kind.UNNAMED)]
        if star_in(tokens) or len(names) != 1:
            return context.segment if star_in(tokens) and not names else ""
        return labels.get((*context.path, names[0]), "") or labels.get((names[0],), "")

    def end_part(self) -> None:
        """Notes that a constant ends the region of cheap labels for cc65, though not for bin65."""
        context = self.context
        context.cheap_before |= context.cheap
        context.cheap = set()
        context.part += 1

    def note_segment(self, statement: Statement) -> None:
        """Notes which segment follows."""
        self.context.segments.step(statement)
        if statement.head == ".segment" and statement.rest:
            self.note_opened(self.context.segment)

    def note_opened(self, segment: str) -> None:
        """Notes that an object has a segment, also where nothing follows in it."""
        if not all(it.is_live is True for it in self.context.blocks):
            self.project.segments_perhaps.add(segment)
        self.project.segments_opened.add(segment)

    def keep_line(self, text: str) -> None:
        """Keeps a line of a macro, for calls that are expanded: with the defines that there are by now, as cc65 does."""
        context = self.context
        if context.macro is None or context.macro not in context.macros:
            return
        if statement_in(text, self.has_escapes).head in words.MACRO_ENDS:
            return
        if not context.defines.keys().isdisjoint(facts_of(text, self.has_escapes).names):
            try:
                text = defines.expanded(text, context, self.has_escapes, is_whole=True)
            except Unportable:
                pass
        context.macros[context.macro].add(text, self.has_escapes)

    def sized(self, name: str) -> Optional[str]:
        """Returns the constant that has the size of a label or scope."""
        parts = tuple(it for it in name.split("::") if it)
        path = self.context.path
        for depth in range(0 if name.startswith("::") else len(path), -1, -1):
            size = self.sizes.get(path[:depth] + parts)
            if size == "0":
                return size
            if size is not None:
                return "::".join([*name.split("::")[:-1], size])
        return None


def _is_asked(tokens: Sequence[Token], at: int) -> bool:
    """Returns whether a name is only tested for being defined."""
    return at > 1 and tokens[at - 1].text == "(" and tokens[at - 2].lower in (".defined", ".def")
