"""Rewrites the statements of a module."""
from typing import Callable, Dict, List, Optional, Sequence

from work65.frontend import words
from work65.frontend.edits import edited
from work65.frontend.expression import scoped_name, value
from work65.frontend.statements import Statement, statement_of
from work65.frontend.tokens import Kind, Token, line_of
from work65.porting import condes, conditions, defines, guards, lists, packages, ranges, registers, shifts, spelling
from work65.porting import statements, structures
from work65.porting.characters import as_elements
from work65.porting.context import OpenScope
from work65.porting.expansion import Macro
from work65.porting.facts import facts_of
from work65.porting.known import ModuleState
from work65.porting.leaves import Line
from work65.porting.line import Unportable, commented_out, replaced
from work65.porting.renaming import Renaming, global_definition

Handler = Callable[[int, str, Statement], List[str]]
# Directives of bin65 before which no label is allowed.
UNLABELLED = frozenset((".else", ".elseif", ".endif", ".local", ".exitmacro", ".exitmac", *words.MACRO_ENDS, *words.REPEAT_ENDS))


class Rewriter:
    """Rewrites each kind of statement."""

    def __init__(self, state: ModuleState, names: Renaming) -> None:
        self.state, self.context, self.project = state, state.context, state.project
        self.names = names
        self.handlers = self.all_handlers()
        self.original = ""
        self.has_lists = False
        self.other_macro: Optional[Macro] = None

    def statement(self, at: int, text: str, statement: Statement) -> List[str]:
        """Rewrites a statement. Returns its lines in the copy."""
        context, head = self.context, statement.head
        if context.place is not None and head not in registers.ENDS:
            return self.registered(text, statement)
        handler = self.handlers.get(head)
        if handler is not None:
            return handler(at, text, statement)
        if head in statements.STATEMENTS:
            found = statements.STATEMENTS[head](text, statement, context)
            if head in (".proc", ".scope"):
                return self.scope(found, statement)
            self.state.note(statement)
            return self.with_size(found, statement)
        if statement.rest and statement.rest[0].lower == ".set":
            return self.names.set(text, statement)
        first = statement.body[0] if statement.body else None
        if first is not None and first.kind is Kind.CHEAP and statement.rest and statement.rest[0].text in ("=", ":="):
            return self.names.cheap_constant(text, statement)
        if first is not None and first.kind is Kind.NAME:
            named = self.named(at, text, statement)
            if named is not None:
                return named
        if conditions.asks(statement.rest) and statement.label is None and (statement.is_constant or head in words.DATA):
            lines, asked = conditions.counted(text, statement.rest, context, self.state.unique(at))
            self.state.note(statement)
            return replaced(text, statement, [*lines, f"{statement.body[0].text} {asked}"])
        shifts.refuse(statement.body, context)
        if "force_range" in context.features:
            text = ranges.cut(text, statement, context)
            statement = statement_of(line_of(text, self.state.has_escapes).tokens, self.project.is_macro)
        if head in words.DATA:
            found = statements.split_stars(text, statement, context)
            if len(found) > 1:
                self.state.note(statement)
                return self.with_size(found, statement)
        self.state.note(statement)
        return self.with_size([text], statement)

    def named(self, at: int, text: str, statement: Statement) -> Optional[List[str]]:
        """Returns the lines in place of a long branch, an undocumented instruction or a call of scrcode; None for anything else."""
        head, first, context = statement.head, statement.body[0], self.context
        if head in packages.BRANCHES and statement.rest:
            return self.long_branch(text, statement)
        is_undocumented = head in words.UNDOCUMENTED or head == "nop" and bool(statement.rest)
        if is_undocumented and not self.project.is_macro(first.text) and context.processor == "6502x":
            self.state.note(statement)
            size = self.project.spread.sizes.get(Line(self.state.path, self.state.lines[at].number))
            return self.with_size(statements.as_data(text, statement, context, size), statement)
        return self.screen_codes(text, statement) if first.text == "scrcode" and self.state.screen else None

    def all_handlers(self) -> Dict[str, Handler]:
        """Returns the function that rewrites each directive."""
        context = self.context
        found: Dict[str, Handler] = {
            ".define": lambda at, text, it: defines.defined(text, it, context, self.project.is_single(it), self.state.is_uncertain),
            ".undefine": lambda at, text, it: self.undefined(text, it), ".undef": lambda at, text, it: self.undefined(text, it),
            ".macpack": lambda at, text, it: self.package(text, it), ".autoimport": lambda at, text, it: self.autoimport(text, it),
            ".elseif": lambda at, text, it: self.other_question(at, text, it),
            ".endif": lambda at, text, it: conditions.closed(text, it, context), ".else": lambda at, text, it: self.other(text, it),
            ".endproc": lambda at, text, it: self.end_of_scope(text, it), ".endscope": lambda at, text, it: self.end_of_scope(text, it),
            ".local": lambda at, text, it: self.names.local(text, it), "::": lambda at, text, it: self.global_constant(at, text, it),
            ".org": self.org, "*": self.org, ".reloc": lambda at, text, it: registers.closed(text, context),
        }
        found.update({it: lambda at, text, one: structures.opened(text, one, context) for it in structures.OPENERS})
        found.update({it: lambda at, text, one: structures.closed(text, one, context) for it in structures.CLOSERS})
        found.update({it: lambda at, text, one: self.listed(text, one) for it in words.LISTS})
        found.update({it: lambda at, text, one: self.macro(text, one) for it in (*words.MACRO_BEGINS, *words.MACRO_ENDS)})
        found.update({it: lambda at, text, one: self.charmap(text, one) for it in (".charmap", ".pushcharmap", ".popcharmap")})
        found.update({it: self.condition for it in words.CONDITIONS})
        found.update({it: self.table_entry for it in (*condes.DIRECTIVES, ".condes")})
        return found

    def finished(self, lines: List[str], has_escapes: bool, statement: Statement) -> List[str]:
        """Returns lines with their colons and the codes of their characters."""
        found: List[str] = []
        for it in lines:
            if it.lstrip().startswith(";"):
                found.append(it)
                continue
            one = statement_of(line_of(it, has_escapes).tokens, self.project.is_macro)
            if one.label is not None and not one.has_colon:
                it = statements.with_colon(it, one)
                one = statement_of(line_of(it, has_escapes).tokens, self.project.is_macro)
            if one.label is not None and one.head in UNLABELLED:
                found.append(it[: one.body[0].start].rstrip())
                it = " " * one.body[0].start + it[one.body[0].start :]
                one = statement_of(line_of(it, has_escapes).tokens, self.project.is_macro)
            if self.has_lists:
                found.append(it)
            elif (self.context.charmap.codes or has_escapes) and facts_of(it, has_escapes).has_text:
                found += spelling.translated(it, one, self.context)
            else:
                found += [it] if one.head != ".asciiz" else spelling.translated(it, one, self.context)
        return found

    def condition(self, at: int, text: str, statement: Statement) -> List[str]:
        """Rewrites a condition."""
        if self.state.others is None or self.state.others[0] is not self.state.lines:
            self.state.others = self.state.lines, conditions.alternatives(self.state.lines)
        others = self.state.others[1].get(at, [])
        self.refuse_hidden(statement)
        shifts.refuse(statement.rest, self.context)
        self.state.note(statement)
        is_live = self.names.answer(statement) if self.context.macro is None else None
        found = conditions.opened(text, statement, self.context, others, self.state.unique(at))
        self.context.blocks[-1].is_live = is_live
        self.context.blocks[-1].is_else_live = None if is_live is None else not is_live
        if statement.head == ".ifndef":
            self.context.blocks[-1].guarded = guards.asked(statement) or ""
        return found

    def refuse_hidden(self, statement: Statement) -> None:
        """Refuses to ask for a name that a scope has used and that is defined outside of it: for cc65 it isn't there."""
        if self.context.macro is not None:
            return
        body = statement.body
        asked = body[1:] if statement.head in (".ifdef", ".ifndef") and len(body) == 2 else [
            it for at, it in enumerate(body) if at > 1 and body[at - 1].text == "(" and body[at - 2].lower in (".defined", ".def")]
        for it in asked:
            if it.kind is Kind.NAME and self.is_hidden(it.text):
                raise Unportable(it.text, "defined", "in a scope that has used it cc65 treats it as undefined: write what you mean")

    def is_hidden(self, name: str) -> bool:
        """Returns whether a scope has used a name that it doesn't define."""
        context, path = self.context, self.context.path
        for depth in range(len(path), 0, -1):
            if path[:depth] + (name,) in context.labels:
                return False
            if name in context.scopes[depth - 1].used:
                return True
        return False

    def other(self, text: str, statement: Statement) -> List[str]:
        """Rewrites an .else."""
        if self.context.blocks:
            block = self.context.blocks[-1]
            block.is_live = block.is_else_live
        return [text]

    def other_question(self, at: int, text: str, statement: Statement) -> List[str]:
        """Rewrites an .elseif."""
        self.refuse_hidden(statement)
        found = conditions.otherwise(text, statement, self.context, self.state.unique(at))
        if self.context.blocks:
            block = self.context.blocks[-1]
            asked = self.names.truth(statement.rest) if block.is_else_live else None
            if block.is_else_live is not False:
                block.is_live = asked
                block.is_else_live = None if asked is None else not asked
            else:
                block.is_live = False
        return found

    def undefined(self, text: str, statement: Statement) -> List[str]:
        """Rewrites an .undefine."""
        if statement.rest:
            self.context.defines.pop(statement.rest[0].text, None)
        return [commented_out(text)]

    def macro(self, text: str, statement: Statement) -> List[str]:
        """Rewrites the first or last line of a macro."""
        context = self.context
        if statement.head in words.MACRO_BEGINS and statement.rest:
            context.macro = name = statement.rest[0].text
            if name.lower() in words.MNEMONICS:
                raise Unportable(name, "form", "a macro can't have the name of an instruction: rename it")
            context.parameters = [it.text for it in statement.rest[1:] if it.kind is Kind.NAME]
            self.other_macro = context.macros.get(name)
            context.macros[name] = Macro(context.parameters, codes=context.charmap.codes)
        else:
            self.end_macro()
        return [text]

    def end_macro(self) -> None:
        """Notes what a macro has as it ends: one that was read before under another condition makes it ambiguous."""
        context, before = self.context, self.other_macro
        macro = context.macros.get(context.macro or "")
        if macro is not None:
            macro.is_ambiguous = before is not None and (before.is_ambiguous or before.lines != macro.lines)
        context.macro, context.parameters, context.locals = None, [], set()

    def registered(self, text: str, statement: Statement) -> List[str]:
        """Rewrites a line after an .org that only labels and space follow."""
        found = registers.line(text, statement, self.context)
        for it in found:
            self.state.note(statement_of(line_of(it).tokens, self.project.is_macro))
        return found

    def org(self, at: int, text: str, statement: Statement) -> List[str]:
        """Rewrites an .org."""
        if "string_escapes" in self.context.features:
            raise Unportable(".org", "org")
        if statement.head == "*":
            statement = statement._replace(body=(statement.body[0], *statement.body[2:]))
        state, following = self.state, self.state.lines[at + 1 :]
        is_first = self.project.is_first(state.module) and state.depth == 1 and not state.is_placed
        if is_first and registers.is_given(statement, self.context, self.project.starts, following):
            return [commented_out(text)]
        return registers.opened(text, statement, self.context, following, state.depth == 1 and not state.expanding)

    def global_constant(self, at: int, text: str, statement: Statement) -> List[str]:
        """Rewrites a definition of a global name: without its `::`, and before all scopes."""
        context = self.context
        if len(statement.body) > 2 and statement.body[2].lower == ".set":
            return self.names.set(text, statement)
        plain = global_definition(text, statement)
        if plain is None or context.macro is not None or context.repeats:
            raise Unportable("::", "global-constant")
        name, rest = statement.body[1].text, statement.body[3:]
        if not context.scopes:
            self.state.note_constant(name, rest)
            return [plain]
        number = value(rest, context.value)
        if number is None or context.scopes[0].path != self.state.path or name in context.seen:
            raise Unportable(name, "global-constant", "it is within a scope: move it out")
        context.scopes[0].row.before.append(plain.strip())
        context.constants[(name,)] = number
        context.labels[(name,)] = ""
        context.uncertain.add((name,))
        return [commented_out(text)]

    def with_size(self, lines: List[str], statement: Statement) -> List[str]:
        """Adds the size of a line of data after it if something asks for that. Of a label alone, or before a call,
        it is 0."""
        label = statement.label
        if label is None or label.text not in self.state.sized_names or self.context.macro is not None:
            return lines
        if label.kind is not Kind.NAME:
            return lines
        if not statement.body or statement.body[0].text in self.context.macros:
            self.state.sizes[self.context.path + (label.text,)] = "0"
            return lines
        name = self.names.free(f"sizeof_{label.text}")
        self.state.sizes[self.context.path + (label.text,)] = name
        return [*lines, f"{name} = * - {label.text}"]

    def scope(self, lines: List[str], statement: Statement) -> List[str]:
        """Rewrites the line that opens a scope."""
        context = self.context
        if context.macro is not None:
            return lines
        name = statement.rest[0].text if statement.rest and statement.rest[0].kind is Kind.NAME else ""
        if statement.head == ".proc" and name:
            self.state.note_label(name)
        scope = OpenScope(name, statement.head, self.state.rows[-1], self.state.path, context.segment)
        if name and name in self.state.sized_names:
            size = self.names.free(f"sizeof_{name}")
            begin = name if statement.head == ".proc" else self.names.free(f"begin_of_{name}")
            scope.size = size
            if statement.head != ".proc":
                lines = [f"{begin} = *", *lines]
            scope.behind.append(f"{size} = * - {begin}")
        context.scopes.append(scope)
        return lines

    def end_of_scope(self, text: str, statement: Statement) -> List[str]:
        """Rewrites the line that closes a scope, and adds lines after it."""
        context = self.context
        if context.macro is not None or not context.scopes:
            return [text]
        scope = context.scopes.pop()
        context.cheap = set()
        if scope.name in self.state.sized_names and scope.name and context.segment == scope.segment:
            self.state.sizes[context.path + (scope.name,)] = scope.size
        return [text, *scope.behind]

    def listed(self, text: str, statement: Statement) -> List[str]:
        """Rewrites a list of imports or exports."""
        context = self.context
        if not context.scopes or context.macro is not None:
            return lists.listed(text, statement, context, self.project.global_names(self.state.module))
        found = lists.hoisted(text, statement, context, self.project.global_names(self.state.module))
        outer = context.scopes[0]
        if outer.path != self.state.path:
            raise Unportable(statement.head, "in-scope", "the scope is opened in another file")
        outer.row.before += [it for it in found.before if it not in outer.row.before]
        outer.behind += found.behind
        context.hoisted.update({context.path + (it,): it for it in found.imported})
        return replaced(text, statement, found.inside)

    def autoimport(self, text: str, statement: Statement) -> List[str]:
        """Returns an .autoimport as an .import of the names that cc65's object imports and no list has."""
        if statement.rest and statement.rest[0].lower in ("-", "off"):
            return [commented_out(text)]
        names = self.project.spread.imports.get(self.state.module)
        if names is None or not self.context.is_plain:
            raise Unportable(".autoimport", "autoimport", lists.AUTOIMPORT if names is None else "")
        new = [it for it in names if it not in lists.imported_by(self.project, self.state.module) | self.state.imported]
        self.state.imported |= set(new)
        return lists.of_imports(text, statement, new)

    def table_entry(self, at: int, text: str, statement: Statement) -> List[str]:
        """Rewrites a .constructor or its like: the name is an export, which a table of a source of its own takes in."""
        context = self.context
        if context.macro is not None:
            return [text]
        number, name, priority = condes.entry_of(statement, context)
        if context.repeats or any(it.is_live is not True for it in context.blocks):
            why = Unportable(statement.head, "condes", "work65 can't follow it within a repeat or condition")
            self.project.doubtful.append((self.state.path, self.state.lines[at].number, why))
        else:
            self.project.entries[number, name] = priority
        first, last = statement.body[0], statement.body[-1]
        text = edited(text, [(first.start, last.end, f".export {name}")])
        return self.listed(text, statement_of(line_of(text, self.state.has_escapes).tokens, self.project.is_macro))

    def package(self, text: str, statement: Statement) -> List[str]:
        """Rewrites a .macpack: includes a file of macros, or nothing if they are expanded."""
        name = statement.rest[0].lower if statement.rest else ""
        if name in packages.SCREEN:
            self.state.screen = name
            return [commented_out(text)]
        if name not in packages.TEXTS:
            raise Unportable(name or ".macpack", "package", "there is no such package")
        if name == "cpu":
            self.context.constants.update({(it,): number for it, number in packages.processors().items()})
        return replaced(text, statement, [f'.include "{self.project.package(self.state.path, name)}"'])

    def long_branch(self, text: str, statement: Statement) -> List[str]:
        """Rewrites a long branch: to an earlier label of the same scope it may be short."""
        context, target = self.context, statement.rest
        self.state.note(statement)
        if self.project.is_own_macro(statement.body[0].text):
            return [text]
        if context.macro is not None:
            return [text]
        first = statement.body[0]
        near = edited(text, [(first.start, first.end, f"{statement.head}{packages.NEAR}")])
        if len(target) == 1 and target[0].kind is Kind.CHEAP:
            return [near if target[0].text in context.cheap else text]
        return [near if self.is_near(target) else text]

    def is_near(self, target: Sequence[Token]) -> bool:
        """Returns whether a target is an earlier label of this segment: one of the same scope, or one with scopes."""
        context = self.context
        name, at = scoped_name(target, 0)
        if not name or at != len(target):
            return False
        parts = tuple(it for it in name.split("::") if it)
        if len(parts) == 1 and not name.startswith("::"):
            return context.labels.get(context.path + parts) == context.segment
        for depth in range(0 if name.startswith("::") else len(context.path), -1, -1):
            if context.path[:depth] + parts in context.labels:
                return context.labels[context.path[:depth] + parts] == context.segment
        return False

    def screen_codes(self, text: str, statement: Statement) -> List[str]:
        """Rewrites a call of scrcode as data."""
        self.state.note(statement)
        codes = [packages.screen_code(self.state.screen, it) for it in spelling.codes_of(text, statement, self.context)]
        elements = [f"${it:02X}" for it in codes] if self.context.charmap.codes else as_elements(codes)
        found = replaced(text, statement, [f".byte {', '.join(elements)}"]) if elements else replaced(text, statement, [])
        return [spelling.with_comment(found[0], [it.text for it in statement.rest if it.kind is Kind.STRING]), *found[1:]]

    def charmap(self, text: str, statement: Statement) -> List[str]:
        """Rewrites a line that changes the codes of characters."""
        context = self.context
        if context.macro is not None or context.repeats or any(it.is_live is not True for it in context.blocks):
            raise Unportable(statement.head, "charmap", "work65 can't follow it within a macro, repeat or condition")
        spelling.change_charmap(statement, context)
        return [commented_out(self.original)]
