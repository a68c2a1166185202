"""Libraries of cc65's tools, translated. Larger ones are kept in the user's cache folder by
checksum."""
import hashlib
import json
import os
from contextlib import suppress
from typing import Any, List, NamedTuple, Optional, Tuple

from work65 import pages
from work65.translating import r65_writer
from work65.translating.cc65_objects import CcObject, read_library
from work65.translating.r65_libraries import read_index, write_library
from work65.translating.translation import NEEDS_LINK, translated
from work65.translating.r65_writer import Export, Module, Untranslatable

# Entries of another number, or of another version of work65, are not read. A change of what a
# translation is needs another number.
CACHE_FORMAT = 2
# A smaller library is translated in no time. Of the cached ones the last used stay.
SMALLEST_CACHED, MOST_CACHED = 32768, 64
CHECKSUM_SIZE = 32

# Exports with the type and the priority of each table that lists them; segments with the size of
# the member's part.
Condes = Tuple[Tuple[str, int, int], ...]
Sections = Tuple[Tuple[str, int], ...]


class MemberFacts(NamedTuple):
    """A member of a translated library. If it can't be translated alone, `refusal` is the reason,
    or `has_bank` is true: the library then has a stand-in of its exports and imports, and a link
    that selects it has to replace it."""

    name: str
    exports: Tuple[str, ...]
    imports: Tuple[str, ...]
    condes: Condes
    sections: Sections
    has_bank: bool
    refusal: str


class TranslatedLibrary(NamedTuple):
    """A library of bin65's, and facts about its members in their order."""

    name: str
    data: bytes
    members: List[MemberFacts]


class Special(NamedTuple):
    """What the library's own bytes don't say about a member."""

    condes: Condes
    sections: Sections
    has_bank: bool = False
    refusal: str = ""


def stand_in(obj: CcObject) -> bytes:
    """Returns an object that has only the exports and the imports of another one."""
    is_name = r65_writer.NAME.fullmatch
    names = [it.name for it in obj.imports if is_name(it.name)]
    exports = {it.name: Export(it.name, 0) for it in obj.exports if is_name(it.name)}
    return r65_writer.written(Module(obj.name, names, (), exports.values()))


def translated_member(obj: CcObject) -> Tuple[bytes, Special]:
    """Returns a member's translation or its stand-in, and what there is to know about it."""
    condes = tuple((it.name, kind, priority) for it in obj.exports for kind, priority in it.condes)
    sections = tuple((it.name, it.size) for it in obj.sections)
    try:
        return translated(obj), Special(condes, sections)
    except Untranslatable as error:
        has_bank = error.reason == NEEDS_LINK
        refusal = "" if has_bank else error.without_module()
        return stand_in(obj), Special(condes, sections, has_bank, refusal)


def translated_library(data: bytes, name: str) -> Tuple[bytes, List[Special]]:
    """Translates a library."""
    specials, members = [], []
    for member in read_library(data, name):
        found, special = translated_member(member.object())
        members.append((member.name, found))
        specials.append(special)
    return write_library(members, name), specials


def cache_folder() -> Optional[str]:
    """Returns the cache folder of work65, None if the user has none."""
    named = os.environ.get("XDG_CACHE_HOME", "")
    folder = named if os.path.isabs(named) else os.path.expanduser("~/.cache")
    return os.path.join(folder, "work65") if os.path.isabs(folder) else None


def cached(path: str) -> Optional[Tuple[bytes, List[Special]]]:
    """Reads an entry of the cache: a checksum of the rest, a line of JSON, the library. Returns
    None if there is none, or a damaged one."""
    try:
        with open(path, "rb") as file:
            checksum, rest = file.read(CHECKSUM_SIZE), file.read()
        if hashlib.sha256(rest).digest() != checksum:
            return None
        os.utime(path)
    except OSError:
        return None
    line, _, data = rest.partition(b"\n")
    return data, [special_of(*it) for it in json.loads(line)]


def special_of(condes: List[Any], sections: List[Any], has_bank: bool, refusal: str) -> Special:
    """Returns what the lists of an entry say about a member."""
    tables = tuple((name, kind, priority) for name, kind, priority in condes)
    return Special(tables, tuple((name, size) for name, size in sections), has_bank, refusal)


def keep(path: str, data: bytes, specials: List[Special]) -> None:
    """Writes an entry of the cache, completely or not at all. That it can't be written is no
    error."""
    rest = json.dumps(specials, separators=(",", ":")).encode() + b"\n" + data
    part = f"{path}.{os.getpid()}"
    with suppress(OSError):
        os.makedirs(os.path.dirname(path), 0o700, exist_ok=True)
        try:
            with open(part, "wb") as file:
                file.write(hashlib.sha256(rest).digest() + rest)
            os.replace(part, path)
        except BaseException:
            os.remove(part)
            raise
        forget_old(os.path.dirname(path))


def forget_old(folder: str) -> None:
    """Removes the entries that weren't used for the longest time, if there are too many."""
    files = [entry for entry in os.scandir(folder) if entry.is_file()]
    for _, path in sorted((it.stat().st_mtime_ns, it.path) for it in files)[:-MOST_CACHED]:
        os.remove(path)


def library_of(data: bytes, name: str) -> TranslatedLibrary:
    """Returns the translation of a library, by the cache where possible."""
    folder = cache_folder() if len(data) >= SMALLEST_CACHED else None
    path = f"{folder}/{hashlib.sha256(data).hexdigest()}.{pages.version()}.{CACHE_FORMAT}"
    found = cached(path) if folder else None
    if found is None:
        found = translated_library(data, name)
        if folder:
            keep(path, *found)
    library, specials = found
    members = []
    for entry, special in zip(read_index(library), specials):
        refusal = f"{name}({entry.name}): {special.refusal}" if special.refusal else ""
        members.append(MemberFacts(entry.name, entry.exports, entry.imports, *special[:3], refusal))
    return TranslatedLibrary(name, library, members)
