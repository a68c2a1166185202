"""Label files of emulators."""
import re
from typing import Callable, Dict, Iterator, List, Optional

from work65.frontend.link_script import OUTPUT
from work65.instrumenting.names import NamedAddress

# The header of an NES cartridge's file, which isn't in its memory; its fifth byte counts these.
HEADER, PROGRAM = 16, 0x4000
BANK = 0x4000


def in_cartridge(image: bytes, it: NamedAddress) -> Optional[int]:
    """Returns the offset of a label in the cartridge's program memory, None if it isn't in it."""
    has_header = image[:4] == b"NES\x1a"
    begin, end = (HEADER, HEADER + image[4] * PROGRAM) if has_header else (0, len(image))
    is_inside = it.in_file is not None and it.file == OUTPUT and begin <= it.in_file < end
    return it.in_file - begin if it.in_file is not None and is_inside else None


def vice(image: bytes, names: List[NamedAddress]) -> Iterator[str]:
    """Yields the lines of a label file for VICE, in the form of ld65 -Ln."""
    for it in names:
        yield f"al {it.address & 0xFFFFFFFF:06X} .{it.name}"


def plain(names: List[NamedAddress]) -> Iterator[NamedAddress]:
    """Yields the labels with unique names of letters, digits, `_` and `@`, without those that the script defines."""
    used: Dict[str, int] = {}
    for it in names:
        name = re.sub("[^A-Za-z0-9_@]", "_", it.name.replace("::", "@"))
        if not name.startswith("__"):
            used[name] = used.get(name, 0) + 1
            yield NamedAddress(name if used[name] == 1 else f"{name}_{used[name]}", it.address, it.in_file, it.file)


def mesen(image: bytes, names: List[NamedAddress]) -> Iterator[str]:
    """Yields the lines of a label file for Mesen: labels of the cartridge by offset, others by address."""
    at_address = {it.address for it in names if it.in_file is not None}
    for it in plain(names):
        place = in_cartridge(image, it)
        if place is not None:
            yield f"NesPrgRom:{place:04X}:{it.name}"
        elif it.address < 0x0800 and it.in_file is None:
            yield f"NesInternalRam:{it.address:04X}:{it.name}"
        elif 0x2000 <= it.address < 0x6000:
            yield f"NesMemory:{it.address:04X}:{it.name}"
        elif 0x6000 <= it.address < 0x8000 and it.address not in at_address:
            yield f"NesWorkRam:{it.address - 0x6000:04X}:{it.name}"


def nocash(image: bytes, names: List[NamedAddress]) -> Iterator[str]:
    """Yields lines of an address and a name, for no$gba and others."""
    for it in names:
        yield f"{it.address & 0xFFFFFFFF:08X} {it.name}"


def fceux(image: bytes, names: List[NamedAddress]) -> Iterator[str]:
    """Yields the lines of a label file for FCEUX."""
    for it in names:
        yield f"${it.address & 0xFFFFFFFF:04X}#{it.name}#"


def fceux_files(image: bytes, names: List[NamedAddress]) -> Dict[str, List[NamedAddress]]:
    """Returns the labels for FCEUX by the suffix of the file in which it looks for them."""
    found: Dict[str, List[NamedAddress]] = {}
    for it in names:
        place = in_cartridge(image, it)
        if place is not None:
            found.setdefault(f"{place // BANK:X}", []).append(it)
        elif it.in_file is None and it.address < 0x8000:
            found.setdefault("ram", []).append(it)
    return found


FORMATS: Dict[str, Callable[[bytes, List[NamedAddress]], Iterator[str]]] = {"vice": vice, "mesen": mesen, "fceux": fceux, "nocash": nocash}
