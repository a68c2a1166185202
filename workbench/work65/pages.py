"""The page MESSAGES: its paragraphs by the texts that bin65 prints."""
import os
import re
import textwrap
from dataclasses import dataclass
from typing import Iterator, List, Optional, Tuple

PLACES = ("docs", "share/doc/bin65", "doc/bin65", "share/doc/work65", "")
ROW = re.compile(r"^\| ([^|]+) \| (`[^|]+`) \| (?:`[^|]+`) \|$", re.M)


def found(name: str) -> Optional[str]:
    """Returns a page in the folders above the package: in the tree, or where it is installed."""
    folder = os.path.dirname(os.path.realpath(__file__))
    while True:
        for place in PLACES:
            path = os.path.join(folder, place, name)
            if os.path.isfile(path):
                return path
        above = os.path.dirname(folder)
        if above == folder:
            return None
        folder = above


def version() -> str:
    """Returns the version: CHANGELOG's first heading."""
    path = found("CHANGELOG.md")
    if path is None:
        return "unknown"
    with open(path, encoding="utf-8") as it:
        heading = re.search(r"^## (.*)$", it.read(), re.M)
    return heading[1] if heading else "unknown"


@dataclass(frozen=True)
class PageEntry:
    """A text of the page: a pattern of it, its paragraph, the list after it, and the rows of its table as (what, refused source)."""

    heading: str
    pattern: "re.Pattern[str]"
    paragraph: str
    items: Tuple[str, ...]
    rows: Tuple[Tuple[str, str], ...]

    def lines(self, width: int) -> Iterator[str]:
        """Yields the paragraph and the list after it, wrapped."""
        yield from textwrap.wrap(self.paragraph, width)
        for it in self.items:
            yield from textwrap.wrap(it, width, initial_indent="- ", subsequent_indent="  ")


def entries() -> List[PageEntry]:
    """Returns the entries of the page; none where it isn't there."""
    path = found("MESSAGES.md")
    if path is None:
        return []
    with open(path, encoding="utf-8") as it:
        parts = re.split(r"^### (.*)$", it.read(), flags=re.M)
    return [_entry(heading, text) for heading, text in zip(parts[1::2], parts[2::2])]


def _entry(heading: str, text: str) -> PageEntry:
    words = re.escape(heading).replace(r"N,\ M,\ \.\.", ".+").replace(r",\ M", "")
    pattern = re.compile(re.sub(r"\bN\b", ".+", re.sub(r"\b[Kn]\b", r"\\d+", words)))
    paragraph, _, rest = text.strip().partition("\n\n")
    items = tuple(map(plain, _items(rest.partition("\n\n")[0])))
    rows = [(what, "\n".join(re.findall(r"`([^`]+)`", source))) for what, source in ROW.findall(text)]
    return PageEntry(heading, pattern, plain(paragraph), items, tuple(rows))


def _items(block: str) -> Iterator[str]:
    """Yields the items of a list, or the rows of a table of two columns."""
    lines = block.split("\n")
    if lines[0].startswith("- "):
        yield from (it[2:] for it in lines)
    elif lines[0].count(" | ") == 1:
        for line in lines[2:]:
            yield ": ".join(it.strip() for it in line.strip("|").split(" | "))


def plain(text: str) -> str:
    """Returns a text of a page without its marks."""
    return re.sub(r"\*([^*\n]+)\*", r"\1", re.sub(r"\[([^\]]+)\]\([^)]*\)", r"\1", text)).replace("``", "`").replace("`", "")


def entry_for(text: str, all_entries: List[PageEntry]) -> Optional[PageEntry]:
    """Returns the entry of a message's text."""
    return next((it for it in all_entries if it.pattern.fullmatch(text)), None)
