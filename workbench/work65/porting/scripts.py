"""Scripts: what bin65 doesn't take of them goes, or is written as it takes it."""
from typing import Dict, Iterator, List, Optional, Set, Tuple

from work65.frontend.edits import edited
from work65.frontend.files import Text
from work65.frontend.script_sums import accepted_number, value_of
from work65.frontend.scripts import Attribute, Block, Entry, Word, blocks_of, entries_of, symbols_of, words_of
from work65.porting.script_rows import Rows, Said, Usage

Edit = Tuple[int, int, str]
DROPPED = ("FILES", "FORMATS", "FEATURES")
SWITCHES = {"TRUE": "yes", "1": "yes", "FALSE": "no", "0": "no"}


def ported(text: Text, usage: Usage, symbols: Dict[str, int]) -> Tuple[List[str], List[Said]]:
    """Returns the lines of a script for bin65, with additional symbols, and the reports on its rows. Constructs that can't be converted are kept."""
    whole = "\n".join(text.lines)
    blocks = blocks_of(words_of(whole))
    rows = Rows(whole, blocks, usage).all()
    said, more = list(rows.said), dict(symbols)
    for name, number, word in rows.offsets(_sizes(blocks)):
        if number is None:
            said.append((word, f"{name}: the part of the file before it has no fixed size"))
        else:
            more[name] = number
    edits = _without_overlaps([*_given(blocks, more), *rows.edits, *_edits(whole, blocks)])
    return edited(whole, edits).split("\n") + _symbols(more), said


def _given(blocks: List[Block], more: Dict[str, int]) -> List[Edit]:
    """Returns the symbols of a script whose values ld65's -D gives: they have those, and are no more."""
    found = []
    for entry in entries_of(blocks, "SYMBOLS"):
        value = entry.get("VALUE")
        if value and entry.name.text in more:
            found.append((value[0].start, value[-1].end, f"${more.pop(entry.name.text):04X}"))
    return found


def banks_of(text: Text) -> Dict[str, int]:
    """Returns the banks of segments, by the areas in which they run."""
    blocks = blocks_of(words_of("\n".join(text.lines)))
    numbers, areas = _numbers(blocks), {}
    for entry in entries_of(blocks, "MEMORY"):
        if entry.get("BANK"):
            areas[entry.name.text] = value_of(entry.get("BANK"), numbers)
    found = {}
    for entry in entries_of(blocks, "SEGMENTS"):
        run = entry.get("RUN") or entry.get("LOAD")
        bank = areas.get(run[0].text) if run else None
        if bank is not None:
            found[entry.name.text] = bank
    return found


def starts_of(text: Text) -> Dict[str, int]:
    """Returns where the first segment of each area begins, if the area's start is a number."""
    blocks = blocks_of(words_of("\n".join(text.lines)))
    numbers, found = _numbers(blocks), {}
    entries = [it for it in entries_of(blocks, "SEGMENTS") if it.get("LOAD")]
    rows = {it.get("LOAD")[0].text: it for it in reversed(entries)}
    for area in entries_of(blocks, "MEMORY"):
        row, start = rows.get(area.name.text), value_of(area.get("START"), numbers)
        if row is not None and not any(row.get(it) for it in ("RUN", "START", "OFFSET")):
            found.update({} if start is None else {row.name.text: start})
    return found


def _sizes(blocks: List[Block]) -> Dict[str, Optional[int]]:
    """Returns the sizes of areas that are numbers."""
    numbers = _numbers(blocks)
    areas = entries_of(blocks, "MEMORY")
    return {it.name.text: value_of(it.get("SIZE"), numbers) if it.get("SIZE") else None for it in areas}


def _symbols(symbols: Dict[str, int]) -> List[str]:
    """Returns a block of symbols."""
    rows = [f"    {name}: type = export, value = ${number:04X};" for name, number in symbols.items()]
    return ["SYMBOLS {", *rows, "}"] if rows else []


def _without_overlaps(edits: List[Edit]) -> List[Edit]:
    found: List[Edit] = []
    for it in sorted(edits, key=lambda it: (it[0], -it[1])):
        if not found or it[0] >= found[-1][1]:
            found.append(it)
    return found


def _edits(whole: str, blocks: List[Block]) -> Iterator[Edit]:
    start = _start_address(blocks)
    needed = _names_in_sums(blocks)
    binary = _is_binary(blocks)
    numbers = _numbers(blocks)
    for block in blocks:
        kind = block.word.upper
        if kind in DROPPED and block.last is not None and (binary or kind == "FEATURES"):
            yield block.word.start, block.last.end, ""
            continue
        for entry in block.entries:
            if kind == "SYMBOLS" and entry.name.text in needed:
                yield from _exported(entry)
            for it in entry.attributes:
                yield from _attribute(whole, kind, it, start, numbers)


def _start_address(blocks: List[Block]) -> str:
    """Returns the start address that FEATURES gives; cc65's own where it gives none."""
    for entry in entries_of(blocks, "FEATURES"):
        if entry.name.upper == "STARTADDRESS" and entry.get("DEFAULT"):
            return accepted_number(entry.get("DEFAULT")[0].text)
    return "$0200"


def _is_binary(blocks: List[Block]) -> bool:
    """Returns whether all formats are plain bytes, so that FILES and FORMATS may go."""
    forms = [it.get("FORMAT") for word in ("FILES", "FORMATS") for it in entries_of(blocks, word)]
    return all(it[0].upper in ("BIN", "BINARY") for it in forms if it)


def _names_in_sums(blocks: List[Block]) -> Set[str]:
    """Returns the names that sums of areas have."""
    areas = entries_of(blocks, "MEMORY")
    return {it.text for area in areas for name in ("START", "SIZE") for it in area.get(name) if it.kind == "word"}


def _exported(entry: Entry) -> Iterator[Edit]:
    """Yields a weak symbol that an area needs is an export."""
    kind = entry.get("TYPE")
    if kind and kind[0].text.lower() == "weak":
        yield kind[0].start, kind[0].end, "export"


def _numbers(blocks: List[Block]) -> Dict[str, Optional[int]]:
    """Returns the values of symbols that are numbers."""
    symbols = symbols_of(blocks)
    found: Dict[str, Optional[int]] = {}
    for _ in symbols:
        before = dict(found)
        for name, (entry, _kind) in symbols.items():
            value = entry.get("VALUE")
            found[name] = value_of(value, found) if value else None
        if found == before:
            break
    return found


def _attribute(whole: str, kind: str, it: Attribute, start: str, numbers: Dict[str, Optional[int]]) -> Iterator[Edit]:
    """Yields what becomes of an attribute."""
    name, value = it.name.upper, it.value
    if name == "BANK" and value:
        end = value[-1].end
        yield it.name.start, end + (whole[end : end + 1] == ","), ""
        return
    for word in value:
        if word.kind == "output" and word.upper == "%S":
            yield word.start, word.end, start
        elif word.kind == "number" and accepted_number(word.text) != word.text:
            yield word.start, word.end, accepted_number(word.text)
    if name in ("FILL", "DEFINE", "OPTIONAL") and value and value[0].upper in SWITCHES:
        yield value[0].start, value[0].end, SWITCHES[value[0].upper]
    if name in ("START", "SIZE", "VALUE", "OFFSET", "FILLVAL", "ALIGN", "ALIGN_LOAD"):
        yield from _sum(kind, name, value, numbers)


def _sum(kind: str, name: str, value: List[Word], numbers: Dict[str, Optional[int]]) -> Iterator[Edit]:
    """Yields a sum that bin65 doesn't take, as its number where that is known."""
    is_area = kind == "MEMORY" and name in ("START", "SIZE")
    plain = not any(it.text in "*/()" for it in value) and value and value[0].text not in "+-"
    if not value or (is_area and plain) or (len(value) == 1 and value[0].kind != "word") or any(it.text == "%S" for it in value):
        return
    found = value_of(value, numbers)
    if found is not None and found >= 0:
        yield value[0].start, value[-1].end, f"${found:04X}"
