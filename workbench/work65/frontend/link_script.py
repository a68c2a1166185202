"""The parts of a linker script that locate a segment: memory areas, SEGMENTS entries and exports (docs/SCRIPTS.md)."""
import os
from dataclasses import dataclass, field
from typing import Dict, List, Optional, Tuple

from work65.frontend.edits import edited
from work65.frontend.script_sums import number_of
from work65.frontend.scripts import Block, Entry, Word, blocks_of, words_of
from work65.problem import Problem

# The file name for the linker's output.
OUTPUT = "%O"


@dataclass
class Area:
    """A memory area: the sums of its start and size, and its file."""

    name: str
    start: List[Word]
    size: List[Word]
    file: str
    is_filled: bool


@dataclass
class Segment:
    """An entry of SEGMENTS: the areas in which the segment is loaded and runs, and its type in lower case."""

    name: str
    load: str
    run: str
    kind: str


@dataclass
class Script:
    """A script."""

    areas: List[Area] = field(default_factory=list)
    segments: List[Segment] = field(default_factory=list)
    exports: Dict[str, int] = field(default_factory=dict)

    def segment(self, name: str) -> Optional[Segment]:
        """Returns the entry of a segment, None if it has none."""
        return next((it for it in self.segments if it.name == name), None)


def with_files(text: str, output: str) -> Tuple[str, Dict[str, str]]:
    """Replaces the file names of areas by plain ones, and the name `output` by `%O`. Returns the text, and the file name for each
    plain one."""
    names: Dict[str, str] = {}
    edits = []
    for word in words_of(text):
        if word.kind == "string" and len(word.text) > 2 and word.text.endswith('"'):
            name = os.fsdecode(word.text[1:-1].encode("latin-1"))
            is_output = name in (output, OUTPUT)
            plain = OUTPUT if is_output else f'"{names.setdefault(name, f"area{len(names)}")}"'
            edits.append((word.start, word.end, plain))
    return edited(text, edits), {plain: name for name, plain in names.items()}


def read_script(text: str, name: str) -> Script:
    """Reads a script that bin65 accepts. Raises a Problem if it can't be one."""
    found = Script()
    try:
        for block in blocks_of(words_of(text)):
            _read_block(block, found)
    except (IndexError, ValueError):
        raise Problem(f"{name} is no valid script: run bin65 ld65 for the error") from None
    return found


def _read_block(block: Block, found: Script) -> None:
    """Adds the entries of a block. Raises an IndexError or a ValueError for one that isn't complete."""
    if block.last is None:
        raise ValueError
    for it in block.entries:
        if block.word.upper == "MEMORY":
            start, size, file = it.get("START"), it.get("SIZE"), _text(it, "FILE", OUTPUT).strip('"')
            if not start or not size:
                raise ValueError
            found.areas.append(Area(it.name.text, start, size, file, _text(it, "FILL", "no").lower() == "yes"))
        elif block.word.upper == "SEGMENTS":
            load = _text(it, "LOAD")
            found.segments.append(Segment(it.name.text, load, _text(it, "RUN", load), _text(it, "TYPE", "rw").lower()))
        elif it.get("VALUE"):
            found.exports[it.name.text] = number_of(_text(it, "VALUE"))


def _text(entry: Entry, name: str, otherwise: str = "") -> str:
    """Returns the first token of an attribute's value. Raises an IndexError if there is neither a value nor a default."""
    value = entry.get(name)
    return otherwise if otherwise and not value else value[0].text
