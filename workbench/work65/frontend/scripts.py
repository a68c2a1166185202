"""The linker-script reader: tokens with their positions, and blocks, entries and attributes, as cc65's linker reads them."""
import re
from dataclasses import dataclass, field
from typing import Dict, Iterator, List, NamedTuple, Optional, Tuple

_TOKEN = re.compile(
    r"""(?P<space>\s+)|(?P<comment>\#[^\n]*)|(?P<string>"[^"\n]*"?)|(?P<output>%[OoSs](?![0-9A-Za-z]))
|(?P<number>\$[0-9A-Fa-f]+|%[01]+|0[xX][0-9A-Fa-f]+|[0-9]+[kK]?)|(?P<word>[A-Za-z_]\w*)|(?P<sign>.)""",
    re.X | re.S | re.A,
)


class Word(NamedTuple):
    """A token of a script: its kind, its text, its position in the whole text, and its line."""

    kind: str
    text: str
    start: int
    end: int
    line: int

    @property
    def upper(self) -> str:
        """The text in upper case."""
        return self.text.upper()


@dataclass
class Attribute:
    """An attribute of an entry: its name, and the tokens of its value."""

    name: Word
    value: List[Word]


@dataclass
class Entry:
    """An entry of a block, up to its `;`, which is `last`."""

    name: Word
    attributes: List[Attribute]
    last: Word

    def get(self, name: str) -> List[Word]:
        """Returns the tokens of an attribute's value, empty if the entry doesn't have it."""
        return next((it.value for it in self.attributes if it.name.upper == name), [])


@dataclass
class Block:
    """A block: its word, its entries, and its closing brace, None if it lacks one."""

    word: Word
    entries: List[Entry] = field(default_factory=list)
    last: Optional[Word] = None


def words_of(text: str) -> List[Word]:
    """Splits a script into tokens."""
    found, line, at = [], 1, 0
    for match in _TOKEN.finditer(text):
        line += text.count("\n", at, match.start())
        at = match.start()
        kind = match.lastgroup or "sign"
        if kind not in ("space", "comment"):
            found.append(Word(kind, match[0], match.start(), match.end(), line))
    return found


def blocks_of(found: List[Word]) -> List[Block]:
    """Returns the blocks of a script. Tokens that begin no block are blocks without a brace."""
    return list(_Blocks(found).all())


def entries_of(blocks: List[Block], word: str) -> List[Entry]:
    """Returns the entries of all blocks of a kind, given in upper case."""
    return [it for block in blocks if block.word.upper == word for it in block.entries]


def entries_in(text: str, word: str) -> List[Entry]:
    """Returns the entries of all blocks of a kind in a script."""
    return entries_of(blocks_of(words_of(text)), word)


class _Blocks:
    """Reads tokens from the left."""

    def __init__(self, found: List[Word]) -> None:
        self.found = found
        self.at = 0

    @property
    def now(self) -> Optional[Word]:
        return self.found[self.at] if self.at < len(self.found) else None

    def is_at(self, *texts: str) -> bool:
        """Returns whether the next token is one of these."""
        return self.now is not None and self.now.text in texts

    def all(self) -> Iterator[Block]:
        """Reads blocks up to the end."""
        while self.now is not None:
            block = Block(self.now)
            self.at += 1
            if self.is_at("{"):
                self.at += 1
                while self.now is not None and not self.is_at("}"):
                    block.entries.append(self.entry())
                block.last = self.now
                self.at += 1
            yield block

    def entry(self) -> Entry:
        """Reads an entry up to its `;`."""
        name = self.found[self.at]
        self.at += 1
        if self.is_at(":"):
            self.at += 1
        attributes = []
        while self.now is not None and not self.is_at(";", "}"):
            attributes.append(self.attribute())
        last = self.now or self.found[-1]
        if self.is_at(";"):
            self.at += 1
        return Entry(name, attributes, last)

    def attribute(self) -> Attribute:
        """Reads an attribute with its value."""
        name = self.found[self.at]
        self.at += 1
        if self.is_at("="):
            self.at += 1
        value: List[Word] = []
        while self.now is not None and not self.is_at(";", "}", ","):
            if value and _ends(value[-1], self.now):
                break
            value.append(self.now)
            self.at += 1
        if self.is_at(","):
            self.at += 1
        return Attribute(name, value)


def _ends(last: Word, following: Word) -> bool:
    """Returns whether a value ends between two tokens, which no operator joins."""
    return last.text not in "+-*/(" and following.text not in "+-*/()"


def symbols_of(blocks: List[Block]) -> Dict[str, Tuple[Entry, str]]:
    """Returns the symbols of a script, with their types in lower case."""
    found = {}
    for it in entries_of(blocks, "SYMBOLS"):
        kind = it.get("TYPE")
        found[it.name.text] = (it, kind[0].text.lower() if kind else "")
    return found
