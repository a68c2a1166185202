"""Reads files, and finds the sources and scripts of folders."""
import os
import stat
from dataclasses import dataclass
from typing import Callable, Iterator, List, Sequence

from work65.problem import Problem, complain

SOURCES = (".s", ".asm", ".inc", ".mac", ".a65", ".s65", ".i65")
SCRIPTS = (".cfg",)


@dataclass(frozen=True)
class Text:
    """The lines of a file without their line ends, and the line ends."""

    path: str
    lines: List[str]
    ends: List[str]

    @property
    def is_script(self) -> bool:
        """Returns whether the file is a linker script."""
        return self.path.lower().endswith(SCRIPTS)


def place_of(name: str) -> str:
    """Returns a file's path with the true path of its folder, by which each file has one name."""
    folder, file = os.path.split(name)
    return os.path.join(os.path.realpath(folder or "."), file)


def want_regular(path: str) -> None:
    """Raises a Problem for a pipe or a device, which might never end, and an OSError if there is no such file."""
    kind = os.stat(path).st_mode
    if not stat.S_ISREG(kind) and not stat.S_ISDIR(kind):
        raise Problem(f"{path}: not a regular file")


def read_bytes(path: str, size: int = -1) -> bytes:
    """Reads a file, or at most its first `size` bytes."""
    try:
        want_regular(path)
        with open(path, "rb") as it:
            return it.read(size)
    except OSError as error:
        raise Problem(f"{path}: {error.strerror}") from error


def read_text(path: str) -> str:
    """Reads a file as a text of one character per byte, so that any file can be read and written back unchanged."""
    return read_bytes(path).decode("latin-1")


def text_of(path: str) -> Text:
    """Reads a file and splits it into lines."""
    parts = read_text(path).split("\n")
    last = parts.pop()
    lines = [it[:-1] if it.endswith("\r") else it for it in parts]
    ends = ["\r\n" if it.endswith("\r") else "\n" for it in parts]
    if last:
        lines.append(last)
        ends.append("")
    return Text(path, lines, ends)


def walked(paths: Sequence[str], unread: Callable[[str], None] = complain) -> Iterator[str]:
    """Yields the named files, and the sources and scripts of named folders, in order. Calls `unread` with a message for each
    unreadable folder."""
    for path in paths:
        if os.path.isdir(path):
            yield from _in_folder(path, unread)
        elif os.path.exists(path):
            yield path
        else:
            raise Problem(f"{path}: no such file or folder")


def _in_folder(path: str, unread: Callable[[str], None]) -> Iterator[str]:
    """Yields the sources and scripts in a folder and its subfolders that are regular files."""
    for folder, folders, names in os.walk(path, onerror=lambda it: unread(f"{it.filename}: {it.strerror}")):
        folders.sort()
        for name in sorted(names):
            place = os.path.join(folder, name)
            if name.lower().endswith(SOURCES + SCRIPTS) and not name.lower().startswith("makefile") and os.path.isfile(place):
                yield place
