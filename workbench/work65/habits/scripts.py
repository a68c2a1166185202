"""Finds constructs in linker scripts that bin65 rejects."""
import re
from typing import Iterator, List, Set, Tuple

from work65.frontend.files import Text
from work65.frontend.scripts import Attribute, Block, Entry, Word, blocks_of, symbols_of, words_of
from work65.habits.habit import Finding
from work65.habits.table import BY_NAME

ATTRIBUTES = {
    "MEMORY": {"START", "SIZE", "TYPE", "FILE", "FILL", "FILLVAL", "DEFINE"},
    "SEGMENTS": {"LOAD", "RUN", "TYPE", "ALIGN", "ALIGN_LOAD", "START", "OFFSET", "FILLVAL", "DEFINE", "OPTIONAL"},
    "SYMBOLS": {"TYPE", "VALUE", "ADDRSIZE"},
}
SWITCHES = {"FILL", "DEFINE", "OPTIONAL"}
NUMBERS = {"ALIGN", "ALIGN_LOAD", "START", "OFFSET", "FILLVAL", "VALUE", "SIZE"}
Found = Tuple[Word, str, str]


def found_in(text: Text) -> List[Finding]:
    """Returns the findings in a script."""
    blocks = blocks_of(words_of("\n".join(text.lines)))
    found = [Finding(text.path, word.line, word.text, BY_NAME[name], note) for word, name, note in _all(blocks)]
    return sorted(found, key=lambda it: it.line)


def _all(blocks: List[Block]) -> Iterator[Found]:
    names = _given(blocks)
    weak = {name for name, (_, kind) in symbols_of(blocks).items() if kind == "weak"}
    for block in blocks:
        kind = block.word.upper
        if kind in ("FILES", "FORMATS", "FEATURES"):
            yield block.word, "script-block", ""
        elif kind not in ATTRIBUTES or block.last is None:
            yield block.word, "script-form", ""
        else:
            for entry in block.entries:
                yield from _entry(kind, entry, names, weak)


def _given(blocks: List[Block]) -> Set[str]:
    """Returns the names that a sum may have: exports, and those of areas and segments."""
    found = {name for name, (_, kind) in symbols_of(blocks).items() if kind == "export"}
    for block in blocks:
        ends = {"MEMORY": ("START", "SIZE", "LAST"), "SEGMENTS": ("RUN", "LOAD", "SIZE")}.get(block.word.upper, ())
        found |= {f"__{it.name.text}_{end}__" for it in block.entries for end in ends}
    return found


def _entry(kind: str, entry: Entry, names: Set[str], weak: Set[str]) -> Iterator[Found]:
    """Yields the findings in an entry."""
    if kind == "SEGMENTS" and _kind_of(entry) in ("bss", "zp") and entry.get("RUN") and entry.get("LOAD"):
        if entry.get("RUN")[0].text != entry.get("LOAD")[0].text:
            yield entry.name, "script-areas", ""
    for it in entry.attributes:
        name = it.name.upper
        if name == "BANK":
            yield it.name, "script-bank", ""
        elif name not in ATTRIBUTES[kind]:
            yield it.name, "script-form", ""
        else:
            yield from _value(kind, it, names, weak)


def _kind_of(entry: Entry) -> str:
    value = entry.get("TYPE")
    return value[0].text.lower() if value else ""


def _value(kind: str, it: Attribute, names: Set[str], weak: Set[str]) -> Iterator[Found]:
    """Yields the findings in a value."""
    name, value = it.name.upper, it.value
    for word in value:
        yield from _word(word)
    if name == "TYPE" and value and value[0].upper == "OVERWRITE":
        yield value[0], "script-overwrite", ""
    if name in SWITCHES and value and value[0].upper not in ("YES", "NO"):
        yield value[0], "script-yes", ""
    if name not in NUMBERS or any(word.text == "%S" for word in value):
        return
    if kind == "MEMORY" and name in ("START", "SIZE"):
        if any(word.text in "*/()" for word in value) or (value and value[0].text in "+-"):
            yield value[0], "script-sign", ""
        for word in value:
            if word.kind == "word" and word.text not in names:
                yield word, "script-weak" if word.text in weak else "script-name", ""
    elif len(value) > 1 or (value and value[0].kind == "word"):
        yield value[0], "script-sum", ""


def _word(word: Word) -> Iterator[Found]:
    """Yields the findings in one token of a value."""
    if word.kind == "output" and word.upper == "%S":
        yield word, "script-start", ""
    elif word.kind == "number" and not re.fullmatch(r"[0-9]+|\$[0-9A-Fa-f]+", word.text):
        yield word, "script-number", ""
    elif word.kind == "string" and "%" in word.text:
        yield word, "script-form", "a name without %"
