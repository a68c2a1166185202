"""Builds a program with bin65 in a temporary folder: objects, a link with its map and files, and instrumented copies."""
import argparse
import gc
import os
from dataclasses import dataclass, field
from typing import Dict, List, Optional, Tuple

from work65.formats.maps import Module, read_map
from work65.formats.objects import Object, read_object
from work65.frontend.files import read_bytes, read_text
from work65.frontend.link_script import OUTPUT, read_script, with_files
from work65.frontend.linked_tree import LinkedTree
from work65.instrumenting.copies import Constants, Copies
from work65.instrumenting.layout import Layout, layout_of
from work65.instrumenting.library import sources_of
from work65.instrumenting.located import LocatedModule
from work65.instrumenting.marks import ReachedMark
from work65.instrumenting.replay import replay
from work65.instrumenting.sources import Closure
from work65.problem import Problem
from work65.program import Program
from work65.progress import Progress


@dataclass(frozen=True)
class BuildOptions:
    """The arguments of a build."""

    script: str
    sources: List[str]
    folders: List[str]
    defines: List[str]
    libraries: List[str]
    image: str
    is_compared: bool = False


@dataclass
class Unit:
    """A source, its object, and after the link its module in the map and its located lines. `exports` are the names that the object
    exports, `imports` those that it imports and uses."""

    source: str
    object: str
    module: str
    linked: Optional[Module] = None
    closure: Optional[Closure] = None
    located: Optional[LocatedModule] = None
    exports: List[str] = field(default_factory=list)
    imports: List[str] = field(default_factory=list)


@dataclass
class Build:
    """The result of a build."""

    wanted: BuildOptions
    units: List[Unit]
    layout: Layout
    files: Dict[str, bytes] = field(default_factory=dict)


def add_arguments(parser: argparse.ArgumentParser, is_required: bool = True) -> None:
    """Adds the arguments of a build, which may be replaced by others if they aren't required."""
    parser.add_argument("-C", dest="script", metavar="SCRIPT", required=is_required, help="the linker script")
    add_assembler_arguments(parser)
    add = parser.add_argument
    said = "a library of FOLDER's sources, or of the sources NAME=FILE,FILE, linked last"
    add("--library", dest="libraries", action="append", default=[], metavar="NAME=FOLDER", help=said)
    add("--image", metavar="FILE", help="the name of the linked image (default: a.out); if the file exists, it must equal the image")
    add("sources", nargs="+" if is_required else "*", metavar="SOURCE", help="a source, or an object or library, in link order")


def add_assembler_arguments(parser: argparse.ArgumentParser) -> None:
    """Adds the arguments of an assembler run."""
    add = parser.add_argument
    add("-I", dest="folders", action="append", default=[], metavar="DIR", help="search for included files in DIR")
    add("-D", dest="defines", action="append", default=[], metavar="NAME[=NUMBER]", help="define a constant")
    add("-g", action="store_true", help="accepted, as by ca65; without effect")


def wanted_of(arguments: argparse.Namespace) -> BuildOptions:
    """Returns the arguments of a build from a command line."""
    image = "a.out" if arguments.image is None else arguments.image
    words = (arguments.script, arguments.sources, arguments.folders, arguments.defines, arguments.libraries)
    return BuildOptions(*words, image, arguments.image is not None)


def is_linked_as_it_is(name: str) -> bool:
    """Returns whether a file is an object or a library."""
    return read_bytes(name, 4) in (b"R65o", b"R65l")


def in_library(module: str) -> str:
    """Returns a module's name without the folder in which its library was built."""
    return module.partition("/")[2] if module.startswith("library") and "/" in module else module


class Builder:
    """Runs the steps of a build."""

    def __init__(self, program: Program, wanted: BuildOptions, folder: str, constants: Constants) -> None:
        self.program, self.wanted, self.folder, self.constants = program, wanted, folder, constants
        self.options = [f"-I{it}" for it in wanted.folders] + [f"-D{it}" for it in wanted.defines]
        self.units: List[Unit] = []
        self.given: Dict[str, str] = {}
        self.closures: Dict[str, Closure] = {}
        self.libraries = [(it, sources_of(it, program)) for it in wanted.libraries]

    def run(self, words: List[str], folder: Optional[str] = None, known: Optional[Dict[str, str]] = None) -> None:
        """Runs bin65. Raises a Problem with its message if it fails, with the user's file names."""
        ran = self.program.run(words, folder)
        if ran.status:
            said = ran.err.decode("utf-8", "surrogateescape").strip() or f"{self.program.path} ended with status {ran.status}"
            for made, name in (known or {}).items():
                said = name + said[len(made) :] if said.startswith(made) else said
            raise Problem(said)

    def path(self, name: str) -> str:
        """Returns the path of a file in the folder."""
        return os.path.join(self.folder, name)

    def assemble(self, source: str, object_name: str, module: str) -> Unit:
        """Assembles a source. Reads it first, so that bin65 never reads from a pipe."""
        if source not in self.closures:
            self.closures[source] = Closure(source, self.wanted.folders)
        unit = Unit(source, object_name, module)
        self.run(["ca65", f"-o{self.path(object_name)}", *self.options, "--", source])
        self.units.append(unit)
        return unit

    def free(self, folder: str, source: str) -> str:
        """Returns a free name for the object of a source."""
        stem = os.path.splitext(os.path.basename(source))[0].lstrip("-") or "source"
        name, number = f"{folder}{stem}.o", 2
        while os.path.exists(self.path(name)):
            name, number = f"{folder}{stem}-{number}.o", number + 1
        return name

    def library(self, word: str, sources: List[str], number: int, progress: Progress) -> str:
        """Builds a library from sources. Returns its name in the folder."""
        place, members = f"library{number}/", []
        os.makedirs(self.path(place))
        made = place + os.path.basename(word.partition("=")[0])
        for it in sources:
            progress.step()
            member = self.free(place, it)
            self.assemble(it, member, f"{made}({os.path.basename(member)})")
            members.append(member)
        self.run(["ar65", "r", made, *members], self.folder)
        return made

    def build(self) -> Build:
        """Assembles, links, and locates the lines of each source by a copy."""
        members = sum(len(sources) for _, sources in self.libraries)
        progress = Progress("sources", 2 * (len(self.wanted.sources) + members))
        try:
            built = self.link(self.inputs(progress))
            closures = [self.closures[it.source] for it in built.units]
            tree = LinkedTree(self.path("copies"))
            for unit, closure in zip(built.units, closures):
                progress.step()
                self.tell(unit, closure, tree)
        finally:
            progress.end()
        return built

    def inputs(self, progress: Progress) -> List[str]:
        """Assembles the sources. Returns the inputs of the link: their objects, the given objects and libraries, and built libraries."""
        found = []
        for source in self.wanted.sources:
            progress.step()
            if is_linked_as_it_is(source):
                self.given[os.path.abspath(source)] = source
                found.append(os.path.abspath(source))
            else:
                name = self.free("", source)
                found.append(self.assemble(source, name, name).object)
        return found + [self.library(*it, number, progress) for number, it in enumerate(self.libraries, 1)]

    def link(self, inputs: List[str]) -> Build:
        """Links. The files of areas are written into the folder under plain names."""
        text, names = with_files(read_text(self.wanted.script), self.wanted.image)
        with open(self.path("script"), "w", encoding="latin-1", newline="") as it:
            it.write(text)
        known = {"script:": f"{self.wanted.script}:", **self.given}
        self.run(["ld65", "-Cscript", "-oimage", "-mmap", *inputs], self.folder, known)
        links = read_map(read_bytes(self.path("map")), "the map")
        script = read_script(text, self.wanted.script)
        for area in script.areas:
            area.file = names.get(area.file, area.file)
        files = {}
        for made, name in {**names, "image": OUTPUT}.items():
            if os.path.isfile(self.path(made)):
                files[name] = read_bytes(self.path(made))
        self.compare(files)
        modules = {it.name: it for it in links.modules}
        for unit in self.units:
            unit.linked = modules.get(unit.module)
            unit.module = in_library(unit.module)
        units = [it for it in self.units if it.linked is not None]
        for module in links.modules:
            file, mark, member = module.name.partition("(")
            module.name = self.given[file] + mark + member if file in self.given else in_library(module.name)
        return Build(self.wanted, units, layout_of(script, links, self.wanted.script), files)

    def compare(self, files: Dict[str, bytes]) -> None:
        """Raises a Problem if the user's image isn't the linked one."""
        name = self.wanted.image
        if not self.wanted.is_compared or OUTPUT not in files or not os.path.lexists(name):
            return
        given, made = read_bytes(name), files[OUTPUT]
        if given != made:
            at = next((it for it in range(min(len(given), len(made))) if given[it] != made[it]), min(len(given), len(made)))
            said = f"{name} isn't the image of these sources: it has {len(given)} bytes, theirs {len(made)}; they differ from ${at:X} on"
            raise Problem(said + "; are the library's members in another order?" * bool(self.libraries))

    def tell(self, unit: Unit, closure: Closure, tree: LinkedTree) -> None:
        """Locates the lines of a source."""
        marks, sizes = self.marks(unit, closure, tree)
        unit.closure = closure
        unit.located = replay(closure, marks, sizes)

    def marks(self, unit: Unit, closure: Closure, tree: LinkedTree) -> Tuple[List[ReachedMark], Dict[str, int]]:
        """Returns the marks that a copy of a source reaches, and the sizes of the source's sections."""
        try:
            copies = self.copy(unit, closure, tree, self.constants)
        except Problem:
            if self.constants is Constants.NONE:
                raise
            copies = self.copy(unit, closure, tree, Constants.NONE)  # a constant's expression may be as large as one can be
        copy, plain = self.read(self.path("copy")), self.read(self.path(unit.object))
        if not plain.is_same_program(copy.without(copies.names.segment)):
            raise Problem(f"{unit.source}: the instrumented copy isn't the same program, so its lines can't be located")
        unit.exports, unit.imports = [name for name, _ in plain.exports], plain.imports
        return copies.marks.reached(copy, copies.names.segment, closure.main.name), {it.name: it.size for it in plain.sections}

    def copy(self, unit: Unit, closure: Closure, tree: LinkedTree, constants: Constants) -> Copies:
        """Assembles the copy of a source."""
        copies = Copies(closure, constants, tree.root)
        for source, text in list(copies.texts()):
            tree.put(source.name, text)
        options = [f"-I{tree.inside(it)}" for it in self.wanted.folders] + [f"-D{it}" for it in self.wanted.defines]
        words = ["ca65", f"-o{self.path('copy')}", *options, "--", tree.inside(unit.source)]
        try:
            self.run(words, tree.here)
        except Problem as problem:
            said = f"{unit.source}: bin65 rejects the instrumented copy: {problem}"
            raise Problem(said.replace(tree.root, "")) from problem
        finally:
            tree.restore()
        return copies

    def read(self, name: str) -> Object:
        """Reads an object of this build."""
        return read_object(read_bytes(name))


def build(program: Program, wanted: BuildOptions, folder: str, constants: Constants) -> Build:
    """Builds in a folder. Turns off garbage collection, since nothing is discarded before the end."""
    gc.disable()
    return Builder(program, wanted, folder, constants).build()
