"""Walks the files of a module in the order in which ca65 reads them, and rewrites their lines."""
import re
from typing import List, Optional, Sequence

from work65.frontend import words
from work65.frontend.edits import edited
from work65.frontend.includes import late
from work65.frontend.statements import Statement, statement_of
from work65.frontend.tokens import Kind, line_of
from work65.porting import conditions, defines, shifts, spelling, structures
from work65.porting.calls import Calls
from work65.porting.context import OpenCondition, RewrittenLine
from work65.porting.expander import Expander
from work65.porting.expansion import HARD, OF_TOKENS, end_of_repeat
from work65.porting.facts import Facts, facts_of
from work65.porting.functions import FUNCTIONS
from work65.porting.known import ModuleState
from work65.porting.leaves import Line
from work65.porting.line import Unportable, commented_out
from work65.porting.logical import Logical
from work65.porting.long_lines import MOST_BYTES, split
from work65.porting.merging import merged
from work65.porting.project import Project
from work65.porting.renaming import Renaming
from work65.porting.rewriter import UNLABELLED, Rewriter

# How deep files are included: bin65 takes 256.
DEEPEST = 256
BANK = re.compile(r"\.bank\s*\([^()]*\)", re.I)
ASKED = frozenset((".if", ".elseif"))
END = "cc65 takes a byte $FF as the end of the file: write it as a number"
UNSURE = "whether it is reached can't be determined: write the call out"
# Features for which each line is examined.
ALL_LINES = frozenset(("bracket_as_indirect", "force_range"))


class Walk:
    """One module: a source and what it includes."""

    def __init__(self, project: Project, module: str) -> None:
        self.state = state = ModuleState(project, module)
        self.context, self.project = state.context, project
        self.names = Renaming(state)
        self.rewriter = Rewriter(state, self.names)
        self.calls = Calls(state)
        self.rewriter.handlers[".include"] = lambda at, text, it: self.include(text, it)

    def file(self, path: str) -> str:
        """Walks a file, and answers by which name it is written."""
        if self.state.depth > DEEPEST:
            return path
        saved, others = (self.state.path, self.state.lines, self.state.rows, self.state.given), self.state.others
        self.state.path, self.state.lines, self.state.rows, self.state.given = path, self.project.logical(path), [], {}
        self.state.depth += 1
        at = 0
        while at < len(self.state.lines):
            at = self.line(at)
        self.state.depth -= 1
        written = self.project.keep(path, self.state.rows, self.state.module)
        self.state.path, self.state.lines, self.state.rows, self.state.given = saved
        self.state.others = others
        return written

    def line(self, at: int) -> int:
        """Rewrites a line, and answers which is the next one."""
        number, text = self.state.lines[at]
        row = RewrittenLine(number, [text])
        self.state.rows.append(row)
        self.state.here, self.rewriter.original = at, text
        if "\xff" in text:
            self.state.cannot(number, Unportable("$FF", "form", END))
        if self.context.is_dead and not self.goes_on(text):
            self.pass_by(row, text)
            return at + 1
        try:
            following = self.block(at, row)
            if following is not None:
                return following
            row.lines = self.rewritten(at, text)
            if len(text) > MOST_BYTES or max(map(len, row.lines), default=0) > MOST_BYTES:
                row.lines = [it for one in row.lines for it in split(one, self.state.has_escapes)]
            self.note_names(text)
        except Unportable as it:
            row.lines = [text]
            row.is_dead = False
            self.state.cannot(number, it)
            self.recover(text)
        return at + 1

    def note_names(self, text: str) -> None:
        """Notes which names a line has."""
        context = self.context
        if context.macro is None:
            names = facts_of(text, self.state.has_escapes).names
            context.seen |= names
            context.cheap_used |= {it for it in names if it[0] == "@"}

    def whole(self) -> None:
        """Walks the module from its first line to its last."""
        self.file(self.state.module)
        for name, path, number, why in self.state.deferred:
            if name not in self.state.hard:
                self.project.cannot(path, number, why)

    def block(self, at: int, row: RewrittenLine) -> Optional[int]:
        """Rewrites a repeat or a call that has to be expanded; None where a line stands for itself."""
        context, text = self.context, self.state.lines[at].text
        if context.macro is not None or context.structures:
            return None
        has_repeat = "rep" in text.lower()
        names = facts_of(text, self.state.has_escapes).names
        if not has_repeat and (not context.macros or names.isdisjoint(context.macros) and names.isdisjoint(context.defines)):
            return None
        statement = self.names.parsed(text)
        if has_repeat and statement.head in words.REPEAT_BEGINS:
            return self.repeat(at, row, statement)
        if any(it.text in context.defines for it in statement.body):
            text = defines.expanded(text, context, self.state.has_escapes)
            statement = self.names.parsed(text)
        if not self.calls.is_written_out(statement):
            return None
        label = text[: statement.body[0].start].rstrip() if statement.label is not None else ""
        prepared = self.names.prepared(text)
        expander = Expander(self.names, self.calls, self.emit, self.state.unique(at))
        expander.call(prepared, self.names.parsed(prepared))
        self.write_out(at, row, expander, label)
        return at + 1

    def repeat(self, at: int, row: RewrittenLine, statement: Statement) -> Optional[int]:
        """Writes a repeat out that has to be; None where it may stay."""
        end = end_of_repeat(self.state.lines, at + 1)
        texts = [it.text for it in self.state.lines[at + 1 : end]]
        is_spread = Line(self.state.path, self.state.lines[at].number) in self.project.spread.repeats
        if not is_spread and not late([".repeat", *texts, ".endrepeat"]) and not any(self.has_to_go(here, it) for here, it in enumerate(texts, at + 1)):
            return None
        expander = Expander(self.names, self.calls, self.emit, self.state.unique(at))
        expander.repeat(texts, self.state.lines[at].text, {})
        label = self.state.lines[at].text[: statement.body[0].start].rstrip() if statement.label is not None else ""
        self.write_out(at, row, expander, label)
        return end + 1

    def has_to_go(self, at: int, text: str) -> bool:
        """Returns whether a line has its repeat expanded."""
        self.state.here = at
        tokens = line_of(text, self.state.has_escapes).tokens
        return any(it.lower in HARD or it.text in self.state.hard for it in tokens) or self.calls.is_written_out(self.names.parsed(text))

    def write_out(self, at: int, row: RewrittenLine, expander: Expander, label: str) -> None:
        """Has a call or a repeat expanded; the outermost one stays as a comment."""
        context, text = self.context, self.state.lines[at].text
        saved, depths = (self.state.lines, self.state.rows, self.state.others), (len(context.blocks), len(context.scopes))
        self.state.number, self.state.rows = self.state.lines[at].number, []
        self.state.blocks = self.state.blocks if self.state.expanding else depths[0]
        self.state.expanding += 1
        try:
            if label:
                self.emit(label, ())
            expander.run()
            lines = [line for it in self.state.rows for line in (*it.before, *it.lines)]
        except Unportable:
            del context.blocks[depths[0] :], context.scopes[depths[1] :]
            raise
        finally:
            self.state.expanding -= 1
            self.state.lines, self.state.rows, self.state.others = saved
        row.lines = lines if self.state.expanding else [commented_out(text), *merged(lines), *self.read_late()]

    def read_late(self) -> List[str]:
        """Returns the .include lines of an expansion: cc65 reads the files after its other lines, the
        last one first."""
        waiting, self.state.late = self.state.late[::-1], []
        return [line for it in waiting for line in self.include(it, self.names.parsed(it))]

    def emit(self, text: str, following: Sequence[str]) -> None:
        """Rewrites a line of a call that is expanded."""
        self.state.lines = [Logical(self.state.number, it) for it in (text, *following)]
        self.line(0)

    def goes_on(self, text: str) -> bool:
        """Returns whether a line ends the lines that are left out, or begins others."""
        if "." not in text or any(it.is_live is False for it in self.context.blocks[:-1]):
            return False
        return statement_of(line_of(text).tokens, self.project.is_macro).head in (".else", ".elseif", ".endif")

    def pass_by(self, row: RewrittenLine, text: str) -> None:
        """Goes past a line that is left out: conditions alone count."""
        row.is_dead = True
        row.lines = [spelling.respelled(text, self.context)]
        head = statement_of(line_of(text).tokens, self.project.is_macro).head
        if head in words.CONDITIONS:
            self.context.blocks.append(OpenCondition(1, False, False))
        elif head == ".endif":
            self.context.blocks.pop()

    def recover(self, text: str) -> None:
        """Goes past what a line that stays as it is opens and closes."""
        statement = statement_of(line_of(text).tokens, self.project.is_macro)
        if statement.head in words.CONDITIONS:
            self.context.blocks.append(OpenCondition())
        elif statement.head in structures.CLOSERS and self.context.structures:
            self.context.structures.pop()

    def rewritten(self, at: int, text: str) -> List[str]:
        """Rewrites a line that isn't expanded."""
        context, has_escapes = self.context, self.state.has_escapes
        facts = facts_of(text, has_escapes)
        self.state.keep_line(text)
        if self.is_left(facts, has_escapes):
            self.note_plain(facts)
            return [text]
        if not facts.tokens:
            return [text]
        if not context.defines.keys().isdisjoint(facts.names):
            text = defines.expanded(text, context, has_escapes, is_whole=not facts.directives.isdisjoint(OF_TOKENS))
        text = spelling.respelled(text, context)
        if not facts.directives.isdisjoint(conditions.CONSTANT):
            text = conditions.as_function(text, self.names.parsed(text))
        if ".define" not in facts.directives:
            asked = BANK.findall(text) if ".bank" in facts.directives else ()
            text = self.names.settled(text, is_asked=bool(facts.directives & ASKED))
            text = spelling.with_comment(text, asked) if asked and not BANK.search(text) else text
        statement = self.names.parsed(text)
        if facts.tokens[0].lower == ".ident" and self.names.parsed(text.lstrip()).label is not None:
            text = text.lstrip()  # a label without a colon, which is in the first column for cc65
            statement = self.names.parsed(text)
        self.rewriter.has_lists = False
        if statement.body and statement.body[0].text in context.macros and facts_of(text, has_escapes).has_text:
            self.rewriter.has_lists = self.calls.takes_lists(statement.body[0].text, statement.rest)
            if self.rewriter.has_lists:
                text = self.calls.with_lists(text, statement)
                statement = self.names.parsed(text)
        if context.structures and structures.is_member(statement, context):
            return self.rewriter.finished(structures.member(text, statement, context), has_escapes, statement)
        found = self.rewriter.statement(at, text, statement)
        if context.structures and statement.head in structures.ASKING and context.blocks and context.blocks[-1].is_live is None:
            if statement.head in words.CONDITIONS:
                context.blocks.pop()  # recover() opens it
            raise Unportable(statement.head, context.structures[-1].word[1:], "its condition can't be decided: write the constants out")
        return self.rewriter.finished(found, has_escapes, statement)

    def is_left(self, facts: Facts, has_escapes: bool) -> bool:
        """Returns whether a line stays as it is."""
        context = self.context
        if not facts.is_plain or context.features & ALL_LINES or facts.has_star or has_escapes and facts.has_text:
            return False
        if context.structures or context.place is not None:
            return False
        if facts.has_text and context.charmap.codes:
            return False
        if facts.directives & FUNCTIONS or ".include" in facts.directives or facts.is_long:
            return False
        names = facts.names
        if shifts.has_shift(facts.tokens):
            return False
        if not self.state.sized_names.isdisjoint(names) or self.label_splits(facts):
            return False
        return context.defines.keys().isdisjoint(names) and not self.has_renamed(facts)

    def has_renamed(self, facts: Facts) -> bool:
        """Returns whether a line has a name that is another one in the copy."""
        context, names = self.context, facts.names
        if context.locals & names or not context.changing.isdisjoint(names) or context.cheap_constants.keys() & names:
            return True
        if context.hoisted and any(it.text == "::" for it in facts.tokens):
            return True
        return context.part > 0 and not context.cheap_before.isdisjoint(names)

    def label_splits(self, facts: Facts) -> bool:
        """Returns whether a label precedes a directive that allows none."""
        has_label = bool(facts.tokens) and facts.tokens[0].kind is not Kind.DIRECTIVE
        return has_label and not UNLABELLED.isdisjoint(facts.directives)

    def note_plain(self, facts: Facts) -> None:
        """Notes what a line defines that stays as it is."""
        tokens = facts.tokens
        if not tokens:
            return
        statement = statement_of(tokens, self.project.is_macro)
        self.state.note(statement)

    def include(self, text: str, statement: Statement) -> List[str]:
        """Rewrites an .include, and walks its file."""
        if not statement.rest or statement.rest[0].kind is not Kind.STRING:
            return [text]
        if self.state.expanding:
            if any(it.is_live is None for it in self.context.blocks[self.state.blocks :]):
                raise Unportable(".include", "include-late", UNSURE)
            self.state.late.append(text)
            return []
        token = statement.rest[0]
        name = token.text.strip('"')
        path, spelled = self.project.include(self.state.path, name)
        if path is not None and self.context.macro is None:
            written = self.file(path)
            if written != path:
                spelled = self.project.relative(written, self.state.path)
        return [text] if spelled == name else [edited(text, [(token.start, token.end, f'"{spelled}"')])]
