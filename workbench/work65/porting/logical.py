"""The lines of a file as ca65 reads them: comments of C are comments, and a continued line is one line."""
from typing import List, NamedTuple

from work65.frontend import words
from work65.frontend.tokens import line_of


class Logical(NamedTuple):
    """A line, and the number of the first line that it was."""

    number: int
    text: str


def logical_lines(lines: List[str], is_c: bool, is_continued: bool) -> List[Logical]:
    """Returns the lines of a file. With both features off they are unchanged."""
    found = [Logical(number, it) for number, it in enumerate(lines, 1)]
    if is_c and any("/*" in it for it in lines):
        found = _without_comments(found)
    if is_continued and any(it.rstrip().endswith("\\") or "\\" in it for it in lines):
        found = _joined(found)
    return found


def _without_comments(lines: List[Logical]) -> List[Logical]:
    """Replaces comments between `/*` and `*/` by comments after `;`."""
    found, is_open = [], False
    for it in lines:
        code, comment, at, text = "", "", 0, it.text
        while at < len(text):
            if is_open:
                end = text.find("*/", at)
                comment += text[at:] if end < 0 else text[at:end]
                is_open, at = end < 0, len(text) if end < 0 else end + 2
                continue
            begin = _begin(text, at)
            if begin < 0:
                code, at = code + text[at:], len(text)
            else:
                code, at, is_open = code + text[at:begin], begin + 2, True
        found.append(Logical(it.number, text if not comment and code == text else _with_comment(code, comment)))
    return found


def _begin(text: str, at: int) -> int:
    """Returns where a comment of C begins outside of strings and other comments; -1 where none does."""
    quote = ""
    for place in range(at, len(text) - 1):
        sign = text[place]
        if quote:
            quote = "" if sign == quote else quote
        elif sign == '"':
            quote = sign
        elif sign == ";":
            return -1
        elif text[place : place + 2] == "/*":
            return place
    return -1


def _with_comment(code: str, comment: str) -> str:
    comment = comment.strip()
    if not comment:
        return code.rstrip()
    if ";" in code:
        return f"{code} {comment}"
    return f"{code.rstrip()}        ; {comment}" if code.strip() else f"{code}; {comment}"


def _joined(lines: List[Logical]) -> List[Logical]:
    """Joins lines that are continued by a `\\`. A list of data is continued by its directive."""
    found: List[Logical] = []
    at = 0
    while at < len(lines):
        it = lines[at]
        at += 1
        text = it.text
        while at < len(lines) and _goes_on(text):
            head, comment = _cut(text)
            following = lines[at].text
            at += 1
            tokens = line_of(head).tokens
            data = next((one for one in tokens[:3] if one.lower in words.DATA), None)
            if data is not None and tokens[-1].text == ",":
                kept = head[: tokens[-1].start]
                found.append(Logical(it.number, f"{kept}{'        ' + comment if comment else ''}"))
                text = f"        {data.text}   {following.strip()}"
            else:
                text = f"{head.rstrip()} {following.strip()}" + (f" {comment}" if comment and ";" not in following else "")
        found.append(Logical(it.number, text))
    return found


def _goes_on(text: str) -> bool:
    tokens = line_of(text).tokens
    return bool(tokens) and tokens[-1].text == "\\"


def _cut(text: str) -> "tuple[str, str]":
    """Returns a line without its `\\`, and its comment."""
    line = line_of(text)
    return text[: line.tokens[-1].start], text[line.comment :]
