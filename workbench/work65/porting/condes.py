"""`.constructor` and its like: the tables that cc65's linker makes of them, as a source of its own."""
from dataclasses import dataclass
from typing import Dict, Iterable, Iterator, List, Optional, Sequence, Tuple

from work65.frontend import words
from work65.frontend.expression import value
from work65.frontend.files import Text
from work65.frontend.scripts import Entry, entries_in
from work65.frontend.statements import Statement, parts_of, statement_of
from work65.frontend.tokens import Kind, line_of
from work65.porting.context import Context
from work65.porting.line import Unportable

DIRECTIVES = {".constructor": 0, ".destructor": 1, ".interruptor": 2}
NAMED = {"CONSTRUCTOR": 0, "DESTRUCTOR": 1, "INTERRUPTOR": 2}
MIDDLE, LEAST, MOST = 7, 1, 32
A_ROW = 8
# Each name in each table, with its priority.
Entries = Dict[Tuple[int, str], int]


@dataclass(frozen=True)
class Table:
    """A table that a script requests: its number, the names of the table and of its count, and its location."""

    number: int
    label: str
    count: str
    segment: str
    is_falling: bool


def entry_of(statement: Statement, context: Context) -> Tuple[int, str, int]:
    """Returns the table, the name and the priority that a line gives."""
    parts = parts_of(statement.rest)
    if not parts or len(parts[0]) != 1 or parts[0][0].kind is not Kind.NAME:
        raise Unportable(statement.head, "condes", "a name is missing")
    number = DIRECTIVES.get(statement.head)
    rest = parts[1:]
    if number is None and rest:
        number = DIRECTIVES.get("." + rest[0][0].lower) if rest[0] else None
        number = value(rest[0], context.certain) if number is None else number
        rest = rest[1:]
    priority = value(rest[0], context.certain) if rest else MIDDLE
    if number is None or priority is None or not LEAST <= priority <= MOST or len(rest) > 1:
        raise Unportable(statement.head, "condes", "its table or priority can't be determined")
    return number, parts[0][0].text, priority


def tables_of(script: Text) -> Iterator[Table]:
    """Yields the tables that a script asks for."""
    for entry in entries_in("\n".join(script.lines), "FEATURES"):
        table = _table(entry) if entry.name.upper == "CONDES" else None
        if table is not None:
            yield table


def _table(entry: Entry) -> Optional[Table]:
    found = {name: entry.get(name)[0] for name in ("TYPE", "LABEL", "COUNT", "SEGMENT", "ORDER") if entry.get(name)}
    if "TYPE" not in found or "LABEL" not in found:
        return None
    kind = found["TYPE"]
    number = NAMED.get(kind.upper, int(kind.text) if kind.text.isdigit() else -1)
    segment = found["SEGMENT"].text.strip('"') if "SEGMENT" in found else "RODATA"
    order = found["ORDER"].upper if "ORDER" in found else ""
    return Table(number, found["LABEL"].text, found["COUNT"].text if "COUNT" in found else "", segment, order == "DECREASING")


def source(tables: Iterable[Table], entries: Entries, texts: Iterable[Text]) -> List[str]:
    """Returns the lines of the source with the tables that something asks for; none where nothing does."""
    tables = list(dict.fromkeys(tables))
    used = _used(texts, [name for it in tables for name in (it.label, it.count) if name])
    found: List[str] = []
    for it in tables:
        if it.label in used or it.count in used:
            found += _lines(it, entries)
    return ["; The tables of .constructor and its like. This module is the last one to be linked.", *found] if found else []


def _lines(table: Table, entries: Entries) -> Iterator[str]:
    """Yields a table: by priority, and by name where that is the same."""
    ordered = sorted((priority, name) for (number, name), priority in entries.items() if number == table.number)
    names = [name for _, name in (reversed(ordered) if table.is_falling else ordered)]
    yield f'.segment "{table.segment}"'
    yield f".export {table.label}" + (f", {table.count}" if table.count else "")
    if names:
        yield f".import {', '.join(names)}"
    yield f"{table.label}:"
    for at in range(0, len(names), A_ROW):
        yield f"        .addr   {', '.join(names[at : at + A_ROW])}"
    if table.count:
        yield f"{table.count} = {len(names)}"


def _used(texts: Iterable[Text], names: Sequence[str]) -> "set[str]":
    """Returns those of these names that sources use, not only import."""
    found = set()
    for text in texts:
        for line in text.lines:
            if any(it in line for it in names):
                tokens = line_of(line).tokens
                head = statement_of(tokens, lambda _: False).head
                if head not in words.LISTS or head == ".forceimport":
                    found |= {it.text for it in tokens if it.kind is Kind.NAME}
    return found
