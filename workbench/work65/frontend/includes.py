"""Finds included files as bin65 does (docs/LANGUAGE.md)."""
import os
from typing import Dict, Iterable, Iterator, List, Optional, Sequence, Set, Tuple

from work65.frontend import words
from work65.frontend.files import Text, place_of, text_of, want_regular
from work65.frontend.statements import Statement, statement_in
from work65.frontend.tokens import Kind, is_closed
from work65.problem import Problem


def path_of_bytes(word: str) -> Optional[str]:
    """Decodes a name in a source, one character per byte, to a path. Returns None if it isn't UTF-8."""
    try:
        path = word.encode("latin-1").decode("utf-8")
    except UnicodeDecodeError:
        return None
    return None if "\0" in path else path


def candidates(word: str, opened: str, folders: Sequence[str]) -> List[str]:
    """Returns the names that bin65 tries for the string of an .include in the file `opened`; an .incbin has no folders."""
    path = path_of_bytes(word)
    if path is None:
        return []
    if path.startswith("/"):
        return [path]
    return [opened[: opened.rfind("/") + 1] + path] + [f"{it}/{path}" for it in folders]


def find(word: str, opened: str, folders: Sequence[str]) -> Optional[str]:
    """Returns the first of these names that exists, None if none does."""
    return next((it for it in candidates(word, opened, folders) if os.path.exists(it)), None)


def find_readable(word: str, opened: str, folders: Sequence[str]) -> Optional[str]:
    """Like `find`, but raises a Problem for a pipe or a device, for which bin65 might wait forever."""
    name = find(word, opened, folders)
    if name is not None:
        want_regular(name)
    return name


def find_file(word: str, opened: str, folders: Sequence[str]) -> Optional[str]:
    """Like `find`, but returns None for anything but a regular file."""
    name = find(word, opened, folders)
    return name if name is not None and os.path.isfile(name) else None


def word_of(statement: Statement) -> Optional[str]:
    """Returns the string after .include or .incbin, None if there is none."""
    if statement.rest and statement.rest[0].kind is Kind.STRING and is_closed(statement.rest[0]):
        return statement.rest[0].text[1:-1]
    return None


def names_in(text: Text) -> Iterator[str]:
    """Yields the names after .include in a file."""
    for line in text.lines:
        if ".inc" in line.lower():
            statement = statement_in(line)
            word = word_of(statement) if statement.head == ".include" else None
            if word is not None:
                yield word


def late(lines: Iterable[str]) -> List[Tuple[str, int]]:
    """Returns each .include of a macro or repeat with other statements: the macro, if there is one,
    and the line. cc65 reads the file after all lines of the expansion, bin65 in its place."""
    found: Dict[int, str] = {}
    opened: List[Tuple[str, List[int], int]] = []
    for number, line in enumerate(lines, 1):
        statement = statement_in(line)
        head = statement.head
        if head in words.MACRO_ENDS | words.REPEAT_ENDS and opened:
            name, numbers, count = opened.pop()
            found.update({it: name for it in numbers if count > 1})
        if head or statement.label is not None:
            more = [number] if head == ".include" else []
            opened = [(name, [*numbers, *more], count + 1) for name, numbers, count in opened]
        if head in words.MACRO_BEGINS and statement.rest:
            opened.append((statement.rest[0].text, [], 0))
        elif head in words.REPEAT_BEGINS:
            opened.append((opened[0][0] if opened else "", [], 0))
    return [(name, number) for number, name in sorted(found.items())]


def followed(texts: Iterable[Text], folders: Sequence[str]) -> List[Text]:
    """Returns the files that these include, directly or indirectly, without these and without unreadable ones."""
    waiting = list(texts)
    seen: Set[str] = {place_of(it.path) for it in waiting}
    found: Dict[str, Text] = {}
    while waiting:
        text = waiting.pop(0)
        for word in names_in(text):
            name = find_file(word, text.path, folders)
            if name is None or place_of(name) in seen:
                continue
            seen.add(place_of(name))
            try:
                found[name] = text_of(name)
            except Problem:
                continue
            waiting.append(found[name])
    return list(found.values())
