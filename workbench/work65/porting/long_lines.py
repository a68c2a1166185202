"""Lines that are longer than bin65 takes."""
from typing import List

from work65.frontend import words
from work65.frontend.statements import parts_of, statement_of
from work65.frontend.tokens import line_of
from work65.porting.line import Unportable

MOST_BYTES, LONGEST = 4096, 100


def split(text: str, has_escapes: bool) -> List[str]:
    """Returns a line as lines that are short enough: a list of data an equal one for every few elements, a comment in parts."""
    if len(text) <= MOST_BYTES:
        return [text]
    line = line_of(text, has_escapes)
    if line.comment < len(text):
        indent = text[: len(text) - len(text.lstrip())] if not line.tokens else ""
        comment = [f"{indent}; {it}" for it in _pieces(text[line.comment :].lstrip("; "))]
        code = text[: line.comment].rstrip()
        return [*(split(code, has_escapes) if code else []), *comment]
    statement = statement_of(line.tokens, lambda _: False)
    if statement.head not in words.DATA:
        raise Unportable(text.strip()[:20], "form", f"the line has more than {MOST_BYTES} bytes")
    found: List[str] = []
    word = statement.body[0]
    room = ""
    for part in parts_of(statement.rest):
        element = text[part[0].start : part[-1].end] if part else ""
        if room and len(room) + len(element) > LONGEST:
            found.append(room)
            room = ""
        begin = text[: word.end] if not found else " " * word.start + word.text
        room = f"{room}, {element}" if room else f"{begin} {element}"
    return [*found, room]


def _pieces(text: str) -> List[str]:
    return [text[at : at + LONGEST] for at in range(0, len(text), LONGEST)]
