"""Lists of data, each of which came of a line of its own, as fewer and longer ones."""
from typing import List, Optional, Sequence, Tuple

from work65.frontend import words
from work65.frontend.expression import nothing_known, value
from work65.frontend.statements import parts_of, statement_of
from work65.frontend.tokens import Token, line_of
from work65.porting.facts import star_in

MOST_ELEMENTS, LONGEST = 16, 100


def merged(lines: List[str]) -> List[str]:
    """Returns the lines, with lists of one directive that follow each other as one list."""
    found: List[str] = []
    open_word, shown, count, first = "", "", 0, 0
    for it in lines:
        data = _data(it)
        if data is None:
            found.append(it)
            open_word, count = "", 0
            continue
        word, elements, number = data
        if word == open_word and count + number <= MOST_ELEMENTS and len(found[-1]) + len(elements) + 2 <= LONGEST:
            if count == first:
                found[-1] = shown
            found[-1] = f"{found[-1].rstrip()}, {elements}"
            count += number
        else:
            shown = f"{it[: len(it) - len(it.lstrip())]}{it.split()[0]} {elements}"
            found.append(it)
            open_word, count, first = word, number, number
    return found


def _data(text: str) -> Optional[Tuple[str, str, int]]:
    """Returns the directive of a list of data, its elements and how many they are; None where a line is anything else."""
    line = line_of(text)
    statement = statement_of(line.tokens, lambda _: False)
    if statement.label is not None or statement.head not in words.DATA or line.comment < len(text) or not statement.rest:
        return None
    parts = parts_of(statement.rest)
    if any(star_in(it) for it in parts):
        return None
    return statement.head, ", ".join(_shown(text, it) for it in parts), len(parts)


def _shown(text: str, part: Sequence[Token]) -> str:
    """Returns an element: a number where it is a sum of numbers."""
    found = value(part, nothing_known) if len(part) > 1 else None
    whole = text[part[0].start : part[-1].end] if part else ""
    return whole if found is None or found < 0 else f"${found:02X}" if "$" in whole else str(found)
