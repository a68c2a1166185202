"""Compares the sizes of lines with cc65's, and writes `a:` or `z:` before an operand if bin65 takes another address size."""
from functools import lru_cache
from typing import AbstractSet, Callable, Dict, Iterator, List, NamedTuple, Sequence, Set, Tuple

from work65.frontend import words
from work65.frontend.edits import edited
from work65.frontend.statements import Statement, statement_of
from work65.frontend.tokens import Kind, line_of
from work65.porting.leaves import Leaf, Line, grouped
from work65.porting.packages import BRANCHES, NEAR
from work65.porting.port import Ported
from work65.porting.project import Spread

FORMS, FAR = frozenset((2, 3)), frozenset((2, 5))
# The macros of the package generic that have an operand in memory, and their sizes.
SUMS, ADDING = frozenset(("add", "sub")), frozenset((3, 4))


class Pair(NamedTuple):
    """How many bytes cc65 has where bin65 has a leaf."""

    size: int
    leaf: Leaf


class Measure:
    """The sizes of a copy's lines, of all measured modules."""

    def __init__(self, ported: Ported) -> None:
        self.texts, self.origin, self.originals = ported.texts, ported.origin, ported.project.texts
        self.pairs: Dict[Line, List[Pair]] = {}
        self.begun: Dict[str, Dict[int, int]] = {}

    def take(self, theirs: Sequence[Leaf], ours: Sequence[Leaf]) -> None:
        """Compares a module's leaves."""
        sides = grouped(_joined(theirs, lambda it: bool(it.path)), lambda it: self.begin(it.lines[0]))
        mine = grouped(_joined(ours, lambda it: self.origin(it) is not None), lambda it: self.origin(it.lines[0]))
        for key, groups in mine.items():
            for group, other in zip(groups, sides.get(key, [])):
                for it in self.paired(other, group):
                    self.pairs.setdefault(it.leaf.lines[-1], []).append(it)

    def begin(self, line: Line) -> Line:
        """Returns the line that begins a repeat, for the one that ends it: cc65 has all that a repeat puts there."""
        if line.path not in self.begun:
            text = self.originals.get(line.path)
            self.begun[line.path] = {} if text is None else _begins(text.lines)
        return Line(line.path, self.begun[line.path].get(line.number, line.number))

    def paired(self, theirs: Sequence[Leaf], ours: Sequence[Leaf]) -> Iterator[Pair]:
        """Yields the leaves of one line of the original, side by side; data may be cut into other pieces."""
        left, at = [it.size for it in theirs], 0
        for it in ours:
            while at < len(left) and not left[at]:
                at += 1
            if at == len(left):
                return
            sizes = {left[at], it.size}
            if len(sizes) == 1 or sizes == FAR or self.is_form(sizes, it):
                yield Pair(left[at], it)
                at += 1
                continue
            rest = it.size
            while rest and at < len(left):
                taken = min(rest, left[at])
                rest, left[at] = rest - taken, left[at] - taken
                at += not left[at]

    def is_form(self, sizes: AbstractSet[int], leaf: Leaf) -> bool:
        """Returns whether two sizes are those of a short and of an absolute operand."""
        head = self.head(leaf.lines[-1])
        return sizes == FORMS and head not in words.STORAGE or sizes == ADDING and head in SUMS

    def statement(self, line: Line) -> Statement:
        """Returns the statement of a line of the copy."""
        return statement_of(line_of(self.texts[line.path].lines[line.number - 1]).tokens, lambda _: False)

    def head(self, line: Line) -> str:
        """Returns the first word of a line's statement."""
        return self.statement(line).head

    def files(self) -> Set[str]:
        """Returns the files of the copy in which a line has another size than in cc65."""
        return {line.path for line, pairs in self.pairs.items() if any(it.size != it.leaf.size for it in pairs)}

    def settled(self) -> "Tuple[int, Spread]":
        """Puts the forms into the copy where one does for all: how many, and what has to be expanded for the others."""
        count, spread = 0, Spread()
        for line, pairs in self.pairs.items():
            if all(it.size == it.leaf.size for it in pairs):
                continue
            if len({it.size for it in pairs}) == 1 and self.put(line, pairs[0]):
                count += 1
            else:
                for it in pairs:
                    self.spread(it.leaf, spread)
        return count, spread

    def put(self, line: Line, pair: Pair) -> bool:
        """Puts one form into the copy; False where the line can't have one."""
        statement, text = self.statement(line), self.texts[line.path]
        body = statement.body
        if len(body) < 2:
            return False
        word = body[0].text.lower()
        plain = word[: -len(NEAR)] if word.endswith(NEAR) else word
        if plain in BRANCHES and {pair.size, pair.leaf.size} == FAR:
            edit = (body[0].start, body[0].end, plain + (NEAR if pair.size == 2 else ""))
        elif self.is_form({pair.size, pair.leaf.size}, pair.leaf) and body[1].text not in ("#", "("):
            blank = " " if body[1].text.startswith(":") else ""
            prefix = "a:" if pair.size > pair.leaf.size else "z:"
            edit = (body[1].start, body[1].end if body[1].kind is Kind.PREFIX else body[1].start, prefix + blank)
        else:
            return False
        text.lines[line.number - 1] = edited(text.lines[line.number - 1], [edit])
        return True

    def spread(self, leaf: Leaf, found: Spread) -> None:
        """Notes the macro or the repeat in which a line takes several forms."""
        if len(leaf.lines) < 2:
            return
        line, around = leaf.lines[-1], leaf.lines[-2]
        if self.head(around) in words.REPEAT_BEGINS:
            origin = self.origin(around)
            found.repeats |= {origin} if origin is not None else set()
        for number in range(line.number - 1, 0, -1):
            statement = self.statement(Line(line.path, number))
            if statement.head in words.MACRO_ENDS:
                return
            if statement.head in words.MACRO_BEGINS and statement.rest:
                found.macros.add(statement.rest[0].text)
                return


@lru_cache(maxsize=1 << 16)
def has_open_size(text: str) -> bool:
    """Returns whether a line is an instruction whose operand has a name that decides its size."""
    statement = statement_of(line_of(text).tokens, lambda _: False)
    if statement.head not in words.MNEMONICS - words.BRANCHES - {"jmp", "jsr"} or not statement.rest:
        return False
    if statement.rest[0].kind is Kind.PREFIX or statement.rest[0].text in "#(<>^":
        return False
    return any(it.kind is Kind.NAME and it.lower not in words.REGISTERS for it in statement.rest)


def _begins(lines: Sequence[str]) -> Dict[int, int]:
    """Returns the lines that begin repeats, by those that end them."""
    found: Dict[int, int] = {}
    opened: List[int] = []
    for number, text in enumerate(lines, 1):
        head = statement_of(line_of(text).tokens, lambda _: False).head if "." in text else ""
        if head in words.REPEAT_BEGINS:
            opened.append(number)
        elif head in words.REPEAT_ENDS and opened:
            found[number] = opened.pop()
    return found


def _joined(leaves: Sequence[Leaf], is_known: Callable[[Line], bool]) -> List[Leaf]:
    """Returns leaves without the lines of macros that aren't the user's: what these put counts for the line of the call."""
    found: List[Leaf] = []
    for it in leaves:
        lines = it.lines
        while len(lines) > 1 and not is_known(lines[-1]):
            lines = lines[:-1]
        last = found[-1] if found else None
        is_same = last is not None and lines != it.lines and (last.segment, last.lines) == (it.segment, lines)
        if last is not None and is_same and last.offset + last.size == it.offset:
            found[-1] = last._replace(size=last.size + it.size)
        else:
            found.append(it._replace(lines=lines))
    return found
