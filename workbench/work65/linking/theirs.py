"""cc65's linker, run in a folder of its own: its files, and its map's segments and exports."""
import os
import re
import subprocess
from typing import Dict, List, NamedTuple, Tuple

from work65.frontend.files import read_bytes, read_text
from work65.frontend.link_script import OUTPUT, with_files
from work65.linking.call import TWICE_ALLOWED, Call
from work65.linking.config import named
from work65.problem import Problem

# A segment in the map, with its start, end and size; and an export with its value.
SEGMENT = re.compile(r"^(\S+) +([0-9A-F]{6,}) +[0-9A-F]{6,} +([0-9A-F]{6,}) +[0-9A-F]+$", re.M)
EXPORT = re.compile(r"(\S+) +([0-9A-F]{6,16}) +[A-Z]{1,6}(?= |$)", re.M)
PARTS = ("Segment list:", "Exports list by name:", "Exports list by value:")
WIDTH = 0xFFFFFFFF
SCRIPT, IMAGE, MAP = "theirs.cfg", "theirs", "theirs.map"


class Theirs(NamedTuple):
    """A link by cc65's linker: its files by the names that the config gives, the start and the size
    of each segment, and the exports."""

    files: Dict[str, bytes]
    segments: Dict[str, Tuple[int, int]]
    exports: Dict[str, int]


def link(call: Call, tool: str, folder: str, has_map: bool = True) -> Theirs:
    """Links in a folder. Raises a Problem with the linker's message if it refuses."""
    text, names = with_files(read_text(call.config), call.output)
    with open(os.path.join(folder, SCRIPT), "w", encoding="latin-1", newline="") as it:
        it.write(text)
    words = [tool, *_words(call), *(["-m", MAP, "-vm"] if has_map else [])]
    ran = subprocess.run(
        words, cwd=folder, stdin=subprocess.DEVNULL, capture_output=True, check=False
    )
    if ran.returncode:
        said = os.fsdecode(ran.stderr).replace(SCRIPT, call.config).strip().split("\n")
        raise Problem(f"ld65 refuses: {' '.join(it.strip() for it in said)}")
    made = {}
    for plain, raw in {**names, IMAGE: OUTPUT}.items():
        if os.path.isfile(os.path.join(folder, plain)):
            made[named(raw, call.output)] = read_bytes(os.path.join(folder, plain))
    if not has_map:
        return Theirs(made, {}, {})
    return Theirs(made, *_placed(read_text(os.path.join(folder, MAP))))


def _words(call: Call) -> List[str]:
    """Returns the arguments of a link, with the config and the files in the linker's folder."""
    words = ["-C", SCRIPT, "-o", IMAGE]
    words += [word for name, it in call.symbols.items() for word in ("-D", f"{name}={it}")]
    words += [word for name in call.imports for word in ("-u", name)]
    words += ["-S", str(call.start)] if call.start is not None else []
    words += [TWICE_ALLOWED] * call.allows_twice
    group = 0
    for it in call.inputs:
        words += ["-)"] * (group not in (0, it.group)) + ["-("] * (it.group not in (0, group))
        words.append(os.path.abspath(it.path))
        group = it.group
    return words + ["-)"] * bool(group)


def _placed(text: str) -> Tuple[Dict[str, Tuple[int, int]], Dict[str, int]]:
    """Returns the segments and the exports of a map."""
    rows, first, last = map(text.index, PARTS)
    segments = SEGMENT.finditer(text[rows:first])
    exports = EXPORT.finditer(text[first:last])
    return (
        {it[1]: (int(it[2], 16), int(it[3], 16)) for it in segments},
        {it[1]: int(it[2], 16) & WIDTH for it in exports},
    )
