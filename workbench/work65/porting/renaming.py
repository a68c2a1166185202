"""Names that become others: those that `.set` changes, cheap names of a .local or with a value, and imports of a scope."""
from typing import Iterator, List, Optional, Sequence, Tuple

from work65.frontend.edits import edited
from work65.frontend.expression import value
from work65.frontend.statements import Statement, parts_of, statement_of
from work65.frontend.tokens import Kind, Token, line_of
from work65.porting import conditions, defines, guards, shifts, spelling
from work65.porting.facts import facts_of
from work65.porting.known import ModuleState
from work65.porting.line import Unportable

Edit = Tuple[int, int, str]
# Functions whose result is a string or a name.
SPELLED = frozenset((".concat", ".sprintf", ".string", ".ident"))
ASKED = frozenset((".ifdef", ".ifndef"))
MOST_ROUNDS = 20
# The bits of a condition that cc65 takes.
WIDTH = 0xFFFFFFFF


class Renaming:
    """The names of a module in the copy."""

    def __init__(self, state: ModuleState) -> None:
        self.state, self.context, self.project = state, state.context, state.project

    def settled(self, text: str, is_asked: bool) -> str:
        """Returns a line with its names as they are in the copy and with its functions replaced, also names that functions spell."""
        for _ in range(MOST_ROUNDS):
            found = spelling.with_codes(self.renamed(text), self.context)
            found = self.state.folder.folded(found, facts_of(found, self.state.has_escapes).directives, is_asked)
            if found == text:
                break
            text = found
        return text

    def number_of(self, tokens: Sequence[Token]) -> Optional[int]:
        """Returns the value of an expression, where it is the same in every assembly."""
        text = self.settled(" ".join(it.text for it in tokens), is_asked=False)
        found = line_of(text, self.state.has_escapes).tokens
        shifts.refuse(found, self.context)
        return value(found, self.context.certain)

    def truth(self, tokens: Sequence[Token]) -> Optional[bool]:
        """Returns whether an expression is true, where it is the same in every assembly."""
        found = self.number_of(tokens)
        if found and not found & WIDTH:
            raise Unportable(tokens[0].text, "form", "cc65 uses the lowest 32 bits of a condition, and they are 0: write what you mean")
        return None if found is None else found != 0

    def answer(self, statement: Statement) -> Optional[bool]:
        """Returns whether a condition holds, if that is the same in every assembly."""
        head, rest = statement.head, statement.rest
        if head in conditions.PROCESSORS and self.context.processor == "6502":
            return conditions.PROCESSORS[head] == 1
        name = guards.asked(statement) if head in (".ifdef", ".ifndef") else None
        if name is not None and (len(rest) == 1 or name in self.project.guards and not self.context.scopes):
            known = self.state.is_defined(name)
            return None if known is None else known == (head == ".ifdef")
        return self.truth(rest) if head == ".if" else None

    def renamed(self, text: str) -> str:
        """Returns a line with its names as they are in the copy."""
        context = self.context
        if not (context.locals or context.variables or context.cheap_constants or context.part or context.hoisted):
            return text
        tokens = line_of(text, self.state.has_escapes).tokens
        edits: List[Edit] = []
        for at, it in enumerate(tokens):
            if it.text in context.locals:
                edits.append((it.start, it.end, self.plain(it.text)))
            elif context.macro is None:
                edits += self._renamed(tokens, at)
        return edited(text, edits) if edits else text

    def _renamed(self, tokens: Sequence[Token], at: int) -> Iterator[Edit]:
        """Yields what becomes of one token."""
        context, it = self.context, tokens[at]
        if it.kind is Kind.CHEAP:
            if it.text in context.cheap_constants:
                if not _is_followed(tokens, at, "=", ":="):
                    yield it.start, it.end, context.cheap_constants[it.text]
            elif context.part and it.text in context.cheap_before:
                yield it.start, it.end, f"{it.text}_{context.part + 1}"
        elif it.kind is Kind.NAME:
            if it.text in context.changing:
                yield from self._variable(tokens, at)
            elif it.text in {key[-1] for key in context.hoisted} and at > 1 and tokens[at - 1].text == "::":
                yield from self._hoisted(tokens, at)

    def _variable(self, tokens: Sequence[Token], at: int) -> Iterator[Edit]:
        """Yields a name that .set changes, as its value or as the constant that has it."""
        context, it = self.context, tokens[at]
        before = tokens[at - 1].text if at else ""
        is_quoted = before == "(" and at > 1 and tokens[at - 2].lower == ".string"
        if _is_followed(tokens, at, ".set", "::") or is_quoted or before == "::" and at > 1 and tokens[at - 2].kind is Kind.NAME:
            return
        start, path = (tokens[at - 1].start, ()) if before == "::" else (it.start, context.path)
        for depth in range(len(path), -1, -1):
            key = path[:depth] + (it.text,)
            if key in context.variables:
                if depth < len(path):
                    raise Unportable(it.text, "set", "within a scope cc65 uses its last value: use a constant")
                if tokens[0].lower in ASKED:
                    raise Unportable(it.text, "set", "a condition tests whether it is defined: write what you mean")
                yield start, it.end, context.variables[key]
                return
            if key in context.labels or key in context.constants:
                return

    def _hoisted(self, tokens: Sequence[Token], at: int) -> Iterator[Edit]:
        """Yields an import of a scope, which is one of the whole module in the copy."""
        begin, parts = at, [tokens[at].text]
        while begin > 1 and tokens[begin - 1].text == "::" and tokens[begin - 2].kind is Kind.NAME:
            begin -= 2
            parts.insert(0, tokens[begin].text)
        if begin and tokens[begin - 1].text == "::":
            begin -= 1
        path = () if tokens[begin].text == "::" else self.context.path
        for depth in range(len(path), -1, -1):
            name = self.context.hoisted.get(path[:depth] + tuple(parts))
            if name is not None:
                yield tokens[begin].start, tokens[at].end, f"::{name}" if self.context.scopes else name
                return

    def plain(self, name: str) -> str:
        """Returns the name that stands for a cheap one of a .local."""
        return f"local_{name.lstrip('@')}"

    def local(self, text: str, statement: Statement) -> List[str]:
        """Returns a .local with cheap names: they become names."""
        cheap = [it for it in statement.rest if it.kind is Kind.CHEAP]
        self.context.locals |= {it.text for it in cheap}
        return [edited(text, [(it.start, it.end, self.plain(it.text)) for it in cheap])]

    def set(self, text: str, statement: Statement) -> List[str]:
        """Rewrites a .set to a constant with a name of its own. In expanded lines its value replaces the name."""
        context = self.context
        if context.macro is not None:
            return [text]
        is_global = statement.head == "::"
        name, word, *rest = statement.body[is_global:]
        key = (() if is_global else context.path) + (name.text,)
        if context.repeats or any(it.is_live is not True for it in context.blocks):
            raise Unportable(".set", "set", "work65 can't follow it within a repeat or condition")
        if is_global and context.scopes:
            raise Unportable(".set", "set", "it is within a scope: move it out")
        if key not in context.variables and name.text in context.seen:
            raise Unportable(name.text, "set", "it is used before its first line: cc65 uses its last value there")
        sure, found = value(rest, context.certain), value(rest, context.value)
        self.state.end_part()
        context.changing.add(name.text)
        if self.state.expanding and sure is not None and sure >= 0:
            context.variables[key] = str(sure)
            return []
        new = self.numbered(name.text)
        context.variables[key] = new
        context.constants[key[:-1] + (new,)] = found
        if sure is None:
            context.uncertain.add(key[:-1] + (new,))
        context.labels[key[:-1] + (new,)] = ""
        return [edited(text, [(statement.body[0].start, name.end, new), (word.start, word.end, "=")])]

    def numbered(self, name: str) -> str:
        """Returns the next name of those that stand for a name that .set changes."""
        while True:
            number = self.context.versions[name] = self.context.versions.get(name, 0) + 1
            new = f"{name.lstrip('@')}_set{number}"
            if new not in self.project.words:
                return new

    def cheap_constant(self, text: str, statement: Statement) -> List[str]:
        """Returns a cheap name with a value: a constant with a name of its own, up to the next label."""
        context, name = self.context, statement.body[0]
        if context.macro is not None:
            return [text]
        if context.repeats or any(it.is_live is not True for it in context.blocks):
            raise Unportable(name.text, "cheap-constant", "within a repeat or condition: use a name without @")
        if name.text in context.cheap_used:
            raise Unportable(name.text, "cheap-constant", "it is used before this line: use a name without @")
        new = self.free(f"{context.region}_{name.text[1:]}" if context.region else f"cheap_{name.text[1:]}")
        context.cheap_constants[name.text] = new
        key = context.path + (new,)
        context.constants[key] = value(statement.rest[1:], context.value)
        if self.state.is_uncertain(new) or value(statement.rest[1:], context.certain) is None:
            context.uncertain.add(key)
        return [edited(text, [(name.start, name.end, new)])]

    def free(self, name: str) -> str:
        """Returns a name that the tree doesn't have, made of this one."""
        found, number = name, 1
        while found in self.project.words:
            number += 1
            found = f"{name}_{number}"
        self.project.words.add(found)
        return found

    def parsed(self, text: str) -> Statement:
        """Returns a line's statement."""
        return statement_of(line_of(text, self.state.has_escapes).tokens, self.project.is_macro)

    def prepared(self, text: str) -> str:
        """Returns a line with all its defines and functions of strings replaced, as cc65 does before it splits the line into arguments."""
        text = spelling.respelled(defines.expanded(text, self.context, self.state.has_escapes, is_whole=True), self.context)
        return text if facts_of(text, self.state.has_escapes).directives.isdisjoint(SPELLED) else self.settled(text, is_asked=False)

    def decided(self, text: str) -> Optional[bool]:
        """Returns what a condition evaluates to, None if unknown."""
        statement = self.parsed(self.prepared(text))
        return self.truth(statement.rest) if statement.head == ".elseif" else self.answer(statement)

    def counted(self, text: str) -> Optional[int]:
        """Returns the count of a repeat, where it is known."""
        parts = parts_of(self.parsed(self.prepared(text)).rest)
        return self.number_of(parts[0]) if parts else None


def _is_followed(tokens: Sequence[Token], at: int, *texts: str) -> bool:
    """Returns whether one of these follows."""
    return at + 1 < len(tokens) and tokens[at + 1].lower in texts


def global_definition(text: str, statement: Statement) -> Optional[str]:
    """Returns a definition of `::name` without its `::`; None where it is something else."""
    body = statement.body
    if len(body) < 4 or body[1].kind is not Kind.NAME or body[2].text not in ("=", ":="):
        return None
    return text[: body[0].start] + text[body[1].start :]
