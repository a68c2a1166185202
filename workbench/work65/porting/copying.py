"""Writes a copy: sources, scripts and the data that they take in. What was changed by hand in an earlier copy stays."""
import hashlib
import os
import shutil
import tempfile
from typing import Dict, Iterator, List, Optional, Sequence, Set, Tuple

from work65.frontend.edits import edited
from work65.frontend.files import read_bytes
from work65.frontend.includes import path_of_bytes
from work65.frontend.tokens import Kind, Token, line_of
from work65.output import words
from work65.porting.port import Ported
from work65.porting.project import OWN
from work65.problem import Problem

# The list of what was written, in the format of sha256sum. A folder that has it is a copy.
SUMS = ".work65"
Files = Dict[str, bytes]


def files_of(ported: Ported, folders: Sequence[str]) -> Files:
    """Returns all files of a copy. `folders` are those in which data is looked for."""
    found: Files = {}
    moved: Dict[str, str] = {}
    for path, text in ported.texts.items():
        lines = list(_with_data(ported, path, folders, moved, found))
        found[path] = "".join(line + end for line, end in zip(lines, text.ends)).encode("latin-1")
    return found


def _with_data(ported: Ported, path: str, folders: Sequence[str], moved: Dict[str, str], found: Files) -> Iterator[str]:
    """Yields the lines of a file. Files of .incbin are put where bin65 looks for them; those outside the copy get a
    place within it."""
    original = ported.project.texts.get(ported.names.get(path, path))
    for line in ported.texts[path].lines:
        token = _incbin(line)
        name = None if token is None or original is None else path_of_bytes(token.text.strip('"'))
        if token is None or original is None or name is None or os.path.isabs(name):
            yield line
            continue
        here = _first(name, ["", os.path.dirname(original.path), *folders])
        if here is None:
            yield line
            continue
        there = os.path.normpath(os.path.join(os.path.dirname(path), name))
        if there.startswith(".."):
            there = _moved(os.path.realpath(here), moved)
            spelled = words(os.path.relpath(there, os.path.dirname(path) or "."))
            line = edited(line, [(token.start, token.end, f'"{spelled}"')])
        found[there] = read_bytes(here)
        yield line


def _moved(here: str, moved: Dict[str, str]) -> str:
    """Returns the place within the copy for a file outside it."""
    if here not in moved:
        there = os.path.join(OWN, "data", os.path.basename(here))
        while there in moved.values():
            there = os.path.join(os.path.dirname(there), f"other_{os.path.basename(there)}")
        moved[here] = there
    return moved[here]


def _incbin(line: str) -> Optional[Token]:
    """Returns the name of the file that a line takes in as data."""
    if ".incbin" not in line.lower():
        return None
    tokens = line_of(line).tokens
    at = next((at for at, it in enumerate(tokens) if it.lower == ".incbin"), len(tokens))
    return tokens[at + 1] if at + 1 < len(tokens) and tokens[at + 1].kind is Kind.STRING else None


def _first(name: str, folders: Sequence[str]) -> Optional[str]:
    """Returns the first file of a name in some folders."""
    places = (os.path.join(folder, name) for folder in folders)
    return next((it for it in places if os.path.exists(it) and not os.path.isdir(it)), None)


def put(files: Files, folder: str) -> None:
    """Writes files into a folder."""
    for path, data in files.items():
        place = os.path.join(folder, path)
        os.makedirs(os.path.dirname(place), exist_ok=True)
        with open(place, "wb") as it:
            it.write(data)


def link_others(files: Files, folder: str, copy: str) -> None:
    """Puts links into a temporary copy to what its folder has and `write` neither makes nor removes."""
    if os.path.isdir(folder):
        stale = {os.path.abspath(it) for it in _stale(files, folder)}
        _link_others(os.path.abspath(folder), copy, stale)


def _link_others(folder: str, copy: str, gone: Set[str]) -> None:
    for name in os.listdir(folder):
        place, link = os.path.join(folder, name), os.path.join(copy, name)
        has_gone = any(it.startswith(place + os.sep) for it in gone)
        if os.path.isdir(place) and (has_gone or os.path.isdir(link)):
            os.makedirs(link, exist_ok=True)
            _link_others(place, link, gone)
        elif place not in gone and not os.path.lexists(link):
            os.symlink(place, link)


def _stale(files: Files, folder: str) -> List[str]:
    """Returns the files of an earlier copy that this one doesn't have, if they are as port wrote them."""
    old = ((os.path.join(folder, path), total) for path, total in sums_of(folder)
           if path not in files and not os.path.normpath(path).startswith(("..", "/")))
    return [it for it, total in old if os.path.isfile(it) and _sum(read_bytes(it)) == total]


def _sum(data: bytes) -> str:
    return hashlib.sha256(data).hexdigest()


def write(files: Files, folder: str, originals: Sequence[str], is_forced: bool) -> None:
    """Writes a copy whole, or nothing: it is made beside its folder and moved there."""
    places = {path: os.path.join(folder, path) for path in files}
    if SUMS in files:
        raise Problem(f"{places[SUMS]}: this name is that of port's own list")
    own = {os.path.realpath(it) for it in originals}
    over = next((it for it in places.values() if os.path.realpath(it) in own), None)
    if over is not None:
        raise Problem(f"{over}: the copy would overwrite the original")
    changed = [] if is_forced else list(_changed(files, places, folder))
    if changed:
        more = f" (and {len(changed) - 1} more)" if len(changed) > 1 else ""
        raise Problem(f"{changed[0]}{more}: changed since port wrote it; --force overwrites it")
    stale = _stale(files, folder)
    sums = "".join(f"{_sum(data)}  {path}\n" for path, data in sorted(files.items()))
    above = os.path.dirname(os.path.abspath(folder))
    try:
        os.makedirs(above, exist_ok=True)
        with tempfile.TemporaryDirectory(prefix=".work65-", dir=above) as room:
            put({**files, SUMS: os.fsencode(sums)}, room)
            os.makedirs(folder, exist_ok=True)
            for path in [*files, SUMS]:
                if os.path.isdir(os.path.join(folder, path)):
                    raise Problem(f"{os.path.join(folder, path)}: is a folder")
                os.makedirs(os.path.dirname(os.path.join(folder, path)), exist_ok=True)
                shutil.move(os.path.join(room, path), os.path.join(folder, path))
            for place in stale:
                os.remove(place)
    except OSError as error:
        raise Problem(f"{error.filename or folder}: {error.strerror}") from error


def _changed(files: Files, places: Dict[str, str], folder: str) -> Iterator[str]:
    """Yields the files that are there, would become others, and aren't as port wrote them."""
    written = dict(sums_of(folder))
    for path, place in places.items():
        if os.path.isfile(place):
            now = read_bytes(place)
            if now != files[path] and written.get(path) != _sum(now):
                yield place


def is_in_copy(path: str, folders: Sequence[str]) -> bool:
    """Returns whether a file is in an earlier copy within one of these folders."""
    tops = {os.path.realpath(it) for it in folders}
    above = os.path.dirname(os.path.realpath(path))
    while above not in tops and above != os.path.dirname(above):
        if os.path.isfile(os.path.join(above, SUMS)):
            return True
        above = os.path.dirname(above)
    return False


def sums_of(folder: str) -> Iterator[Tuple[str, str]]:
    """Yields the files that port wrote into a folder, and their sums."""
    place = os.path.join(folder, SUMS)
    lines: List[str] = os.fsdecode(read_bytes(place)).split("\n") if os.path.isfile(place) else []
    for line in lines:
        total, _, path = line.partition("  ")
        if path:
            yield path, total
