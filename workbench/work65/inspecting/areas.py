"""The areas of a script in which segments run, their banks, and the names that the script needs."""
import re
from typing import Dict, Iterator, List, Optional, Tuple

from work65.frontend.script_sums import number_of, value_of
from work65.frontend.scripts import Entry, blocks_of, entries_in, words_of
from work65.inspecting.linked import WindowArea
from work65.instrumenting.layout import Layout

BANK = re.compile(r"#\s*bank\s*=?\s*(\$[0-9A-Fa-f]+|[0-9]+)", re.I)


def bank_of(entry: Entry, text: str) -> Optional[int]:
    """Returns the bank of an area: its attribute, or that of a comment `# bank N` on its lines."""
    given = entry.get("BANK")
    lines = "\n".join(text.split("\n")[entry.name.line - 1 : entry.last.line])
    found = [given[0].text] if given else BANK.findall(lines)
    return number_of(found[0]) if found else None


def areas_of(layout: Layout, text: str) -> Dict[str, WindowArea]:
    """Returns the area in which each segment of a script runs."""
    banks = {entry.name.text: bank_of(entry, text) for entry in entries_in(text, "MEMORY")}
    found = {}
    for segment in layout.script.segments:
        room = layout.rooms[segment.run]
        found[segment.name] = WindowArea(segment.run, room.start, room.size, banks[segment.run])
    return found


def areas_of_config(text: str, placed: Dict[str, Tuple[int, int]]) -> Dict[str, WindowArea]:
    """Returns the areas of the linked segments, given the starts and sizes of these. An area whose
    addresses the config of ld65 computes reaches from its first segment to its last one."""
    entries = {entry.name.text: entry for entry in entries_in(text, "MEMORY")}
    runs: Dict[str, List[str]] = {}
    for segment in entries_in(text, "SEGMENTS"):
        for word in (segment.get("RUN") or segment.get("LOAD"))[:1]:
            if segment.name.text in placed and word.text in entries:
                runs.setdefault(word.text, []).append(segment.name.text)
    found = {name: WindowArea(name, *place, None) for name, place in placed.items()}
    for area, names in runs.items():
        entry = entries[area]
        start, size = value_of(entry.get("START"), {}), value_of(entry.get("SIZE"), {})
        if start is None or size is None:
            start = min(placed[name][0] for name in names)
            size = max(sum(placed[name]) for name in names) - start
        found.update(dict.fromkeys(names, WindowArea(area, start, size, bank_of(entry, text))))
    return found


def needed_by(text: str) -> Iterator[str]:
    """Yields the names in a script that modules may export: its symbols, and those in sums."""
    for block in blocks_of(words_of(text)):
        for entry in block.entries:
            yield from [entry.name.text] if block.word.upper == "SYMBOLS" else []
            sums = (entry.get(it) for it in ("START", "SIZE", "OFFSET", "VALUE"))
            yield from (word.text for value in sums for word in value if word.kind == "word")
