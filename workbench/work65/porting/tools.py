"""The tools of cc65 and bin65, run side by side: objects, and links with the files, the maps and the debug file that come of them."""
import os
import re
import resource
import shutil
import subprocess
from dataclasses import dataclass, field
from typing import Dict, Iterable, List, Optional, Sequence, Set

from work65.formats.maps import Map, read_map
from work65.frontend.files import read_bytes
from work65.frontend.link_script import OUTPUT, with_files
from work65.frontend.linked_tree import LinkedTree
from work65.problem import Problem
from work65.program import Program

NAMES = ("ca65", "ld65", "od65", "ar65")
# A segment in ld65's map, with its start, end and size; and an export with its value.
SEGMENT = re.compile(r"^(\S+) +([0-9A-F]{6,}) +[0-9A-F]{6,} +([0-9A-F]{6,}) +[0-9A-F]+$")
EXPORT = re.compile(r"(\S+) +([0-9A-F]{6,16}) +([A-Z]{1,6})(?= |$)")
# The flag of an export that an object uses.
USED = "R"
C_NUMBER = re.compile(r"0[xX]([0-9A-Fa-f]+)|0[0-7]+")
WIDTH = 0xFFFFFFFF
MEMORY, MOST_SAID = 1 << 30, 1 << 16


class Refused(Exception):
    """The message of a tool that rejects a source or a link: its first error, and all its lines."""

    def __init__(self, lines: Sequence[str]) -> None:
        super().__init__(next((it for it in lines if "rror" in it), lines[0]))
        self.lines = lines

    def of_script(self, name: str) -> "Refused":
        """Returns the same message with a script's own name."""
        own = re.compile(r"(?<!\S)script(?=[(:])")
        return Refused([own.sub(lambda _: name, it, count=1) for it in self.lines])


@dataclass(frozen=True)
class Options:
    """The options that a Makefile passes to ca65, the symbols that it passes to ld65, how long ca65 may
    take for a source, and whether no other -D will be given."""

    target: Optional[str] = None
    include: Sequence[str] = ()
    data: Sequence[str] = ()
    define: Sequence[str] = ()
    processor: str = "6502"
    features: Sequence[str] = ()
    symbols: Dict[str, int] = field(default_factory=dict)
    seconds: int = 8
    is_fixed: bool = False


@dataclass
class Linked:
    """The result of a link: its files, the sizes of segments, the values of exports, and cc65's debug file or bin65's map. For cc65
    also the start of segments without bytes, and the exports that an object uses."""

    files: Dict[str, bytes]
    sizes: Dict[str, int] = field(default_factory=dict)
    starts: Dict[str, int] = field(default_factory=dict)
    exports: Dict[str, int] = field(default_factory=dict)
    used: Set[str] = field(default_factory=set)
    debug: str = ""
    map: Optional[Map] = None


def missing() -> Optional[str]:
    """Returns the first of cc65's tools that isn't on the path."""
    return next((it for it in NAMES if shutil.which(it) is None), None)


def ran(words: Sequence[str], folder: str, seconds: int = 0) -> None:
    """Runs a tool, some within a limited time and memory: ca65 expands some sources without an end.
    If it fails, raises its message."""
    def limit() -> None:
        resource.setrlimit(resource.RLIMIT_CPU, (seconds, seconds))
        resource.setrlimit(resource.RLIMIT_AS, (MEMORY, MEMORY))

    try:
        tool = subprocess.Popen(words, cwd=folder, stdin=subprocess.DEVNULL, stdout=subprocess.PIPE,
                                stderr=subprocess.STDOUT, preexec_fn=limit if seconds else None)
    except OSError as error:
        raise Problem(f"{words[0]} can't be run: {error.strerror}") from error
    with tool:
        try:
            text = b"" if tool.stdout is None else tool.stdout.read(MOST_SAID)
            while tool.stdout is not None and tool.stdout.read(MOST_SAID):
                pass
            tool.wait()
        finally:
            tool.kill()
    if tool.returncode:
        said = text.decode("utf-8", "replace").rstrip().split("\n")
        raise Refused(said if said[0] else [f"it took more than {seconds} seconds or {MEMORY >> 20} MB"])


def other_exports(cc65: Linked, bin65: Linked) -> List[str]:
    """Returns the exports that have another value with bin65, without names that ld65 lists of its own accord."""
    names = [it for it in cc65.exports if it in bin65.exports or not it.startswith("__")]
    return sorted(it for it in names if bin65.exports.get(it) != cc65.exports[it])


def _files(room: str, names: Dict[str, str]) -> Dict[str, bytes]:
    """Returns the files of a link that aren't empty, by the names that the script gives."""
    found = {}
    for made, name in sorted(names.items(), key=lambda it: it[1] != OUTPUT):
        if os.path.isfile(os.path.join(room, made)):
            found[name] = read_bytes(os.path.join(room, made))
    return {name: it for name, it in found.items() if it}


def _room(room: str, script: str) -> Dict[str, str]:
    """Puts a script into an empty folder, with plain names for its files; answers what these stand for."""
    shutil.rmtree(room, ignore_errors=True)
    os.makedirs(room)
    text, names = with_files(script, OUTPUT)
    with open(os.path.join(room, "script"), "w", encoding="latin-1", newline="") as it:
        it.write(text)
    return {**names, "image": OUTPUT}


class Theirs:
    """cc65's tools, run where the user runs them."""

    def __init__(self, options: Options) -> None:
        self.words = [f"-D{it}" for it in options.define] + [f"-I{it}" for it in options.include]
        self.words += [w for it in options.data for w in ("--bin-include-dir", it)]
        self.words += ["--cpu", options.processor, *(w for it in options.features for w in ("--feature", it))]
        self.words += ["-t", options.target] if options.target and options.target != "none" else []
        self.seconds = options.seconds

    def assemble(self, source: str, made: str, tree: Optional[LinkedTree] = None) -> None:
        """Assembles a source, with what the debug file needs; or the file that represents it in a tree of links."""
        if tree is None:
            ran(["ca65", "-g", *self.words, "-o", made, source], os.getcwd(), self.seconds)
            return
        words = [f"-I{tree.inside(os.path.realpath(it[2:]))}" if it.startswith("-I") else it for it in self.words]
        ran(["ca65", "-g", *words, "-o", made, tree.inside(source)], tree.here, self.seconds)

    def archive(self, library: str, members: Sequence[str], folder: str) -> None:
        """Makes a library of objects."""
        ran(["ar65", "r", library, *members], folder)

    def link(self, script: str, inputs: Sequence[str], room: str, more: Sequence[str] = ()) -> Linked:
        """Links objects by the text of a script, with more options."""
        names = _room(room, script)
        ran(["ld65", *more, "-C", "script", "-o", "image", "-m", "map", "-vm", "--dbgfile", "debug", *inputs], room)
        found = Linked(_files(room, names), debug=_text(room, "debug"))
        lines = _text(room, "map").split("\n")
        rows, first, last = (lines.index(it) for it in ("Segment list:", "Exports list by name:", "Exports list by value:"))
        sizes = [it for it in map(SEGMENT.match, lines[rows:first]) if it is not None]
        found.sizes = {it[1]: int(it[3], 16) for it in sizes if int(it[3], 16)}
        found.starts = {it[1]: int(it[2], 16) for it in sizes}
        exports = [it for line in lines[first + 2 : last] for it in EXPORT.finditer(line)]
        found.exports = {it[1]: int(it[2], 16) & WIDTH for it in exports}
        found.used = {it[1] for it in exports if USED in it[3]}
        return found


class Ours:
    """bin65, run in the copy."""

    def __init__(self, program: Program, copy: str, include: Iterable[str], define: Sequence[str]) -> None:
        self.program, self.copy, self.define = program, copy, ["=".join(map(in_decimal, it.split("=", 1))) for it in define]
        self.include = [it for it in include if os.path.isdir(os.path.join(copy, it))]
        self.words = [f"-D{it}" for it in self.define] + [f"-I{it}" for it in self.include]

    def assemble(self, source: str, made: str) -> None:
        """Assembles a source of the copy."""
        ran([self.program.path, "ca65", *self.words, "-o", made, "--", source], self.copy)

    def archive(self, library: str, members: Sequence[str], folder: str) -> None:
        """Makes a library of objects."""
        ran([self.program.path, "ar65", "r", library, *members], folder)

    def link(self, script: str, inputs: Sequence[str], room: str) -> Linked:
        """Links objects by the text of a script."""
        names = _room(room, script)
        ran([self.program.path, "ld65", "-Cscript", "-oimage", "-mmap", *inputs], room)
        links = read_map(read_bytes(os.path.join(room, "map")), "the map")
        found = Linked(_files(room, names), map=links)
        found.sizes = {it.name: it.size for it in links.rows if it.size}
        found.exports = {name: value & WIDTH for name, value in links.symbols.items()}
        return found


def in_decimal(number: str) -> str:
    """Returns a number as C writes it (0x12, 012) in decimal, and any other text as it is."""
    found = C_NUMBER.fullmatch(number)
    return number if found is None else str(int(found[1], 16) if found[1] else int(number, 8))


def _text(room: str, name: str) -> str:
    """Returns a text that a tool wrote."""
    return read_bytes(os.path.join(room, name)).decode("latin-1")
