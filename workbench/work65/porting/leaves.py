"""Which lines put which bytes: of cc65's tools by the linker's debug file, of bin65 by the marks of a copy."""
import re
from typing import Callable, Dict, Iterable, Iterator, List, NamedTuple, Optional, Sequence, Tuple

from work65.formats.objects import Place
from work65.instrumenting.marks import ReachedMark, Sign


class Line(NamedTuple):
    """A line of a file."""

    path: str
    number: int


class Leaf(NamedTuple):
    """Bytes of a segment that one line puts, and the lines that lead there: calls and repeats first, that line last."""

    segment: str
    offset: int
    size: int
    lines: Tuple[Line, ...]


# A record of the debug file, and one attribute of it.
RECORD, ATTRIBUTE = re.compile(r"^(\w+)\t(.*)$", re.M), re.compile(r'(\w+)=("[^"]*"|[^,"]*)')


class Span(NamedTuple):
    """A span of a segment, and its lines."""

    start: int
    size: int
    lines: Tuple[Line, ...]


def records(text: str, kind: str) -> Iterator[Dict[str, str]]:
    """Yields the records of a kind in a debug file."""
    for it in RECORD.finditer(text):
        if it[1] == kind:
            yield {name: value.strip('"') for name, value in ATTRIBUTE.findall(it[2])}


def of_debug_file(text: str, key: Callable[[str], str]) -> List[Leaf]:
    """Returns the leaves of a program that cc65's linker linked. `key` names a file by its path in the debug file."""
    files = {it["id"]: key(it["name"]) for it in records(text, "file")}
    owners: Dict[str, List[Tuple[int, int, Line]]] = {}
    for it in records(text, "line"):
        rank = int(it.get("type", "0")), int(it.get("count", "0"))
        for span in it.get("span", "").split("+"):
            owners.setdefault(span, []).append((*rank, Line(files[it["file"]], int(it["line"]))))
    segments = {it["id"]: it["name"] for it in records(text, "seg")}
    spans: Dict[str, List[Span]] = {}
    for it in records(text, "span"):
        if it["id"] in owners:
            lines = tuple(line for _, _, line in sorted(owners[it["id"]]))
            spans.setdefault(segments[it["seg"]], []).append(Span(int(it["start"]), int(it["size"]), lines))
    return [leaf for segment in sorted(spans) for leaf in _nested(segment, spans[segment])]


def _nested(segment: str, spans: List[Span]) -> Iterator[Leaf]:
    """Yields the smallest spans, each with the lines of those around it."""
    opened: List[Tuple[int, Tuple[Line, ...]]] = []
    at = 0

    def up_to(end: int) -> Iterator[Leaf]:
        nonlocal at
        if opened and at < end:
            yield Leaf(segment, at, end - at, opened[-1][1])
        at = max(at, end)

    for it in sorted(spans, key=lambda it: (it.start, -it.size)):
        while opened and opened[-1][0] <= it.start:
            yield from up_to(opened[-1][0])
            opened.pop()
        yield from up_to(it.start)
        opened.append((it.start + it.size, (opened[-1][1] if opened else ()) + it.lines))
    while opened:
        yield from up_to(opened[-1][0])
        opened.pop()


class _Opened(NamedTuple):
    """A call, a repeat or a file that isn't over."""

    sign: Sign
    line: int
    lines: Tuple[Line, ...]


PAIRS = {Sign.BACK: Sign.CALL, Sign.OVER: Sign.REPEAT, Sign.INCLUDED: Sign.INCLUDE}


def of_marks(marks: Iterable[ReachedMark], sizes: Dict[str, int], key: Callable[[str], str]) -> List[Leaf]:
    """Returns the leaves of a module that bin65 assembled, by the marks of its copy. `key` names a file by its place."""
    opened: List[_Opened] = [_Opened(Sign.INCLUDE, 0, ())]
    begun: Dict[str, List[Tuple[int, Tuple[Line, ...]]]] = {}
    for met in marks:
        mark = met.mark
        lines = (*opened[-1].lines, Line(key(mark.source.place), mark.line))
        if isinstance(met.value, Place):
            begun.setdefault(met.value.section, []).append((met.value.offset, lines))
        if mark.sign in (Sign.CALL, Sign.REPEAT, Sign.INCLUDE):
            opened.append(_Opened(mark.sign, mark.line, opened[-1].lines if mark.sign is Sign.INCLUDE else lines))
        elif mark.sign in PAIRS:
            while len(opened) > 1 and opened.pop().sign is not PAIRS[mark.sign]:
                pass
    return [leaf for segment in sorted(begun) for leaf in _cut(segment, begun[segment], sizes.get(segment, 0))]


def _cut(segment: str, begun: Sequence[Tuple[int, Tuple[Line, ...]]], end: int) -> Iterator[Leaf]:
    """Yields the leaves of a segment: each ends where the next one begins."""
    following: List[int] = [it[0] for it in begun[1:]] + [end]
    for (offset, lines), stop in zip(begun, following):
        if stop > offset:
            yield Leaf(segment, offset, stop - offset, lines)


def grouped(leaves: Iterable[Leaf], anchor: Callable[[Leaf], Optional[Line]]) -> Dict[Tuple[str, Line], List[List[Leaf]]]:
    """Returns leaves that follow each other and come of one line of a file, by the segment and that line."""
    found: Dict[Tuple[str, Line], List[List[Leaf]]] = {}
    last: Optional[Tuple[str, Line]] = None
    for it in leaves:
        line = anchor(it)
        now = None if line is None else (it.segment, line)
        if now is not None and now == last:
            found[now][-1].append(it)
        elif now is not None:
            found.setdefault(now, []).append([it])
        last = now
    return found
