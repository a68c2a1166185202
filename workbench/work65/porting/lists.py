"""Lists of imports and exports: address sizes, definitions, and those within a scope."""
from dataclasses import dataclass, field
from typing import Dict, List, Sequence, Set

from work65.frontend.edits import text_of_tokens
from work65.frontend.statements import Statement, parts_of, statement_of
from work65.frontend.tokens import Kind, Token, line_of
from work65.porting.context import Context
from work65.porting.line import Unportable, replaced
from work65.porting.project import Project

SHORT = frozenset(("zp", "zeropage", "direct"))
LONG = frozenset(("abs", "absolute", "near"))
SHORT_IMPORTS = {".import": ".importzp", ".global": ".globalzp"}
IMPORTS = frozenset((".import", ".importzp", ".forceimport", ".global", ".globalzp"))
AUTOIMPORT = "the names are known only from cc65's object: write an .import for each"
ZERO_PAGE = {".import": ".importzp", ".global": ".globalzp", ".export": ".exportzp"}


# The most names of a written list.
MOST = 8


@dataclass
class Names:
    """The result of a list: definitions, and names by directive."""

    definitions: List[str] = field(default_factory=list)
    by_word: Dict[str, List[str]] = field(default_factory=dict)


def listed(text: str, statement: Statement, context: Context, own: Sequence[str]) -> List[str]:
    """Rewrites a list outside all scopes."""
    names = read(text, statement, context, own)
    if not names.definitions and list(names.by_word) == [statement.head]:
        if all(len(it) == 1 for it in parts_of(statement.rest)):
            return [text]
    return replaced(text, statement, names.definitions + _directives(names))


def imported_by(project: Project, module: str) -> Set[str]:
    """Returns the names that the lists of a module and of the files that it includes import."""
    paths = project.closure(module) & project.texts.keys()
    lines = [line_of(it.text).tokens for path in paths for it in project.logical(path)]
    rows = [it.rest for it in (statement_of(one, project.is_macro) for one in lines) if it.head in IMPORTS]
    return {part[0].text for it in rows for part in parts_of(it) if part}


def of_imports(text: str, statement: Statement, names: Sequence[str]) -> List[str]:
    """Returns lists that import names, in place of a statement."""
    return replaced(text, statement, [f".import {', '.join(names[at : at + MOST])}" for at in range(0, len(names), MOST)])


def _directives(names: Names) -> List[str]:
    return [f"{word} {', '.join(it)}" for word, it in names.by_word.items()]


def read(text: str, statement: Statement, context: Context, own: Sequence[str]) -> Names:
    """Returns the names of a list with the size or value after each. While a segment of the zero page is open, an import without a size is
    short; a name of the module's own isn't."""
    found = Names()
    is_short = context.segments.is_zero_page and context.macro is None
    for part in parts_of(statement.rest):
        if not part or part[0].kind is not Kind.NAME:
            raise Unportable(statement.body[0].text, "size-behind", "a name is missing")
        word = _word(text, statement.head, part, found)
        if is_short and len(part) == 1 and part[0].text not in own:
            if word == ".forceimport":
                found.by_word.setdefault(".importzp", []).append(part[0].text)
            word = SHORT_IMPORTS.get(word, word)
        found.by_word.setdefault(word, []).append(part[0].text)
    return found


def _word(text: str, head: str, part: Sequence[Token], found: Names) -> str:
    """Returns the directive for one name, by the size after it. Notes a definition."""
    rest, word = list(part[1:]), head
    if len(rest) > 1 and rest[0].text == ":":
        size, rest = rest[1], rest[2:]
        if size.lower in SHORT:
            word = ZERO_PAGE.get(head, head)
        elif size.lower not in LONG:
            raise Unportable(size.text, "size-behind", "bin65 has no addresses of this size")
    if rest and rest[0].text in ("=", ":=") and len(rest) > 1:
        found.definitions.append(f"{part[0].text} = {text_of_tokens(text, rest[1:])}")
    elif rest:
        raise Unportable(rest[0].text, "size-behind", "only a size or a definition can follow a name")
    return word


@dataclass
class Hoisted:
    """The result of a list within a scope: lines before the outermost scope, and after it."""

    before: List[str] = field(default_factory=list)
    behind: List[str] = field(default_factory=list)
    inside: List[str] = field(default_factory=list)
    imported: List[str] = field(default_factory=list)


def hoisted(text: str, statement: Statement, context: Context, is_global: Sequence[str]) -> Hoisted:
    """Rewrites a list within scopes: imports go before them, exports of names of the scope after them."""
    names = read(text, statement, context, is_global)
    found = Hoisted(inside=list(names.definitions))
    if not all(it.name for it in context.scopes):
        raise Unportable(statement.body[0].text, "in-scope", "names in a scope without a name can't be reached from outside")
    is_import = statement.head in (".import", ".importzp", ".forceimport")
    for word, it in names.by_word.items():
        for name in it:
            if is_import:
                if name in is_global:
                    raise Unportable(name, "in-scope", "outside the scope this name means something else")
                found.before.append(f"{word} {name}")
                found.imported.append(name)
            elif word in (".export", ".exportzp"):
                found.behind += _exported(word, name, context, is_global)
            else:
                raise Unportable(statement.body[0].text, "in-scope")
    return found


def _exported(word: str, name: str, context: Context, is_global: Sequence[str]) -> List[str]:
    """Returns the lines after the outermost scope that export a name of an inner one."""
    if name in is_global:
        raise Unportable(name, "in-scope", "outside the scope this name means something else")
    return [f"{name} = {'::'.join([*context.path, name])}", f"{word} {name}"]
