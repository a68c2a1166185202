"""Decides which calls are expanded in the copy, and rewrites the others."""
from typing import List, Sequence, Set

from work65.frontend import words
from work65.frontend.edits import edited
from work65.frontend.reach import reached
from work65.frontend.statements import Statement, parts_of, statement_of
from work65.frontend.tokens import Kind, Token, line_of
from work65.porting import ranges, shifts, spelling
from work65.porting.expansion import Macro
from work65.porting.facts import star_in
from work65.porting.known import ModuleState

ASKING = frozenset((".ifdef", ".ifndef", ".defined", ".def"))
BYTES = frozenset((".byte", ".byt"))
# Directives of which each element becomes something else.
LISTS = frozenset((".lobytes", ".hibytes", ".bankbytes", ".faraddr"))
BLANKS = frozenset((".ifblank", ".ifnblank"))


class Calls:
    """The calls of a module."""

    def __init__(self, state: ModuleState) -> None:
        self.state, self.context, self.project = state, state.context, state.project

    def is_written_out(self, statement: Statement) -> bool:
        """Returns whether a statement is the call of a macro that is expanded."""
        first = statement.body[0] if statement.body else None
        if first is None or first.kind is not Kind.NAME or first.text not in self.context.macros:
            return False
        return first.text in self.state.hard or self.has_to_be_written(first.text, statement)

    def has_to_be_written(self, name: str, statement: Statement) -> bool:
        """Returns whether a call must be expanded: for changes since the macro was read, for its arguments, or for its location."""
        context, rest = self.context, statement.rest
        macros = self.called_by(name)
        if any(self.is_changed(it) for it in macros):
            return True
        if any(star_in(it) for it in parts_of(rest)) and any(it.directives & words.DATA for it in macros):
            return True
        if any(it.text == "{" for it in rest) and any(it.directives & LISTS for it in macros):
            return True
        if any(it.has_shift for it in macros) and shifts.may_turn_negative(rest, context):
            return True
        if "force_range" in context.features and ranges.may_be_cut(rest, context) and any(it.directives & words.DATA for it in macros):
            return True
        if any(self.has_codes(it) for it in rest if it.kind is Kind.STRING) and not self.takes_lists(name, rest):
            return True
        if any(it.text in self.state.sized_names for it in rest) and any(it.directives & words.SCOPE_BEGINS for it in macros):
            return True
        return self.is_hidden_there(macros, rest) or any(self.has_other_regions(it) for it in macros)

    def called_by(self, name: str) -> List[Macro]:
        """Returns a macro, and those that it calls."""
        macros = self.context.macros
        return [macros[it] for it in reached([name], lambda it: macros[it].names & macros.keys())]

    def is_changed(self, macro: Macro) -> bool:
        """Returns whether a macro's lines mean something else than where they were read: for a define that came
        later, a variable, or codes of characters."""
        context = self.context
        if not macro.names.isdisjoint(context.changing) or macro.has_text and macro.codes != context.charmap.codes:
            return True
        return any(not context.defines[name].is_constant for name in macro.names & context.defines.keys())

    def is_hidden_there(self, macros: List[Macro], rest: Sequence[Token]) -> bool:
        """Returns whether a scope around a call has used a name of it."""
        names = {it.text for it in rest} | {name for it in macros for name in it.names}
        is_asked = any(it.directives & ASKING for it in macros)
        return is_asked and any(not names.isdisjoint(it.used) for it in self.context.scopes)

    def has_other_regions(self, macro: Macro) -> bool:
        """Returns whether a macro with cheap names of its own would end the region of those around its call."""
        own = {it for it in macro.locals if it[0] == "@"}
        return bool(own) and (bool(macro.cheap - own) or bool(self.state.expanding) or self.is_spanned())

    def is_spanned(self) -> bool:
        """Returns whether cheap names are used before and after a line, in the region around it."""
        own = self.cheap_names(range(self.state.here, self.state.here + 1))
        before, after = self.cheap_names(range(self.state.here - 1, -1, -1)), self.cheap_names(range(self.state.here + 1, len(self.state.lines)))
        return bool(before | own) and bool(after | own) and bool(before | after)

    def cheap_names(self, places: range) -> Set[str]:
        """Returns the cheap names of lines up to one with a label."""
        found: Set[str] = set()
        for at in places:
            tokens = line_of(self.state.lines[at].text, self.state.has_escapes).tokens
            found |= {it.text for it in tokens if it.kind is Kind.CHEAP}
            label = statement_of(tokens, self.project.is_macro).label
            if label is not None and label.kind is Kind.NAME or any(it.lower == ".proc" for it in tokens[:1]):
                break
        return found

    def has_codes(self, it: Token) -> bool:
        """Returns whether a string has other codes than its bytes."""
        return spelling.needs_codes(it, self.context)

    def takes_lists(self, name: str, rest: Sequence[Token]) -> bool:
        """Returns whether a call's strings are elements of lists alone, so that numbers may stand for them."""
        macro, parts = self.context.macros[name], parts_of(rest)
        given = [it for it, part in zip(macro.parameters, parts) if any(one.kind is Kind.STRING for one in part)]
        return all(self.is_element(name, it, 0) for it in given) and all(_is_list(it) for it in parts)

    def is_element(self, name: str, parameter: str, depth: int) -> bool:
        """Returns whether a parameter is only used as an element of lists of bytes."""
        macro = self.context.macros[name]
        for text in macro.lines:
            tokens = line_of(text, self.state.has_escapes).tokens
            if not any(it.text == parameter for it in tokens):
                continue
            statement = statement_of(tokens, self.project.is_macro)
            parts = [it for it in parts_of(statement.rest) if any(one.text == parameter for one in it)]
            is_alone = all(len(it) == 1 for it in parts) and statement.label is None
            called = self.context.macros.get(statement.body[0].text) if statement.body else None
            if statement.head in BYTES and is_alone or statement.head in BLANKS:
                continue
            if called is None or not is_alone or depth > 20:
                return False
            taken = [one for one, part in zip(called.parameters, parts_of(statement.rest)) if part and part[0].text == parameter]
            if not all(self.is_element(statement.body[0].text, it, depth + 1) for it in taken):
                return False
        return True

    def with_lists(self, text: str, statement: Statement) -> str:
        """Returns a call that stays, with the codes of its strings in place of them."""
        edits, texts = [], []
        for part in parts_of(statement.rest):
            for it in part:
                if it.kind is Kind.STRING and self.has_codes(it):
                    elements = ", ".join(spelling.elements_of(it, self.context))
                    edits.append((it.start, it.end, "{" + elements + "}" if len(part) == 1 else elements))
                    texts.append(it.text)
        return spelling.with_comment(edited(text, edits), texts) if edits else text


def _is_list(part: Sequence[Token]) -> bool:
    """Returns whether an argument is one token, or a list in braces whose strings are elements of their own."""
    if len(part) <= 1 or not any(it.kind is Kind.STRING for it in part):
        return True
    if part[0].text != "{" or part[-1].text != "}":
        return False
    return all(len(it) == 1 or not any(one.kind is Kind.STRING for one in it) for it in parts_of(part[1:-1]))
