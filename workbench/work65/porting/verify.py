"""Builds a tree with cc65's tools and its copy with bin65, compares what comes out, and mends forms in the copy by what it finds."""
import os
import shutil
import tempfile
from dataclasses import dataclass, field, replace
from typing import Callable, Dict, Iterable, List, Optional, Sequence, Set, Tuple, Union

from work65.diagnosing.message import message_of
from work65.frontend import words
from work65.frontend.linked_tree import LinkedTree
from work65.instrumenting.build import Builder, BuildOptions
from work65.instrumenting.copies import Constants
from work65.instrumenting.sources import Closure
from work65.porting import alone, copying, filling, unasserted
from work65.porting.difference import Finder, LinkedModule
from work65.porting.lists import AUTOIMPORT
from work65.porting.leaves import Leaf, Line, of_debug_file, of_marks
from work65.porting.measuring import Measure, Pair, has_open_size
from work65.porting.port import Ported
from work65.porting.project import Spread
from work65.porting.statements import SIZE_UNKNOWN
from work65.porting.tools import Linked, Options, Ours, Refused, Theirs, other_exports
from work65.problem import Problem
from work65.program import Program
from work65.progress import Progress

# Files that are no sources by themselves, where nothing includes them either.
PARTS = (".inc", ".mac", ".i65", ".h")
ROUNDS = 8
Port = Callable[[Spread], Ported]


@dataclass
class Outcome:
    """The result of a single source: the message of each tool that rejects it, whether a link by both was compared and was the same, and
    cc65's debug file."""

    theirs: str = ""
    ours: str = ""
    is_compared: bool = False
    is_same: bool = True
    debug: str = ""
    refusal: str = ""
    sides: Optional[Tuple[str, Linked, Linked]] = None


@dataclass(frozen=True)
class Library:
    """A library: its name, and the sources of its members in their order."""

    name: str
    members: List[str]


@dataclass(frozen=True)
class Whole:
    """A program: the name of its script, the texts of that for both linkers, its sources in the order
    of the link, and its libraries."""

    script: str
    theirs: str
    ours: str
    sources: List[str]
    libraries: List[Library] = field(default_factory=list)

    def modules(self) -> List[str]:
        """Returns all sources."""
        return [*self.sources, *(it for library in self.libraries for it in library.members)]


class Verifier:
    """Compares a tree with its copy, and mends the copy."""

    def __init__(self, program: Program, options: Options, room: str, port: Port,
                 folder: str = "") -> None:
        self.program, self.options, self.room = program, options, room
        self.port, self.folder = port, folder
        self.files: copying.Files = {}
        self.theirs = Theirs(options)
        self.made: Dict[str, Union[str, Refused]] = {}
        self.needs: Dict[str, alone.Needs] = {}
        self.spread = Spread()
        self.ported = port(self.spread)
        self.outcomes: Dict[str, Outcome] = {}
        self.linked_trees: List[str] = []

    # The copy and its build.

    @property
    def copy(self) -> str:
        """The temporary folder of the copy."""
        return os.path.join(self.room, "copy")

    @property
    def modules(self) -> List[str]:
        """The sources of the tree that no other file takes in."""
        project = self.ported.project
        inside: Set[str] = set().union(*project.included.values()) if project.included else set()
        return [it for it in project.modules_walked if it not in inside and not it.lower().endswith(PARTS)]

    def ours(self) -> Ours:
        """Returns bin65, run in the copy."""
        project = self.ported.project
        include = [os.path.relpath(it, project.base) for it in project.include_folders]
        return Ours(self.program, self.copy, [it for it in include if not it.startswith("..")], self.options.define)

    def put(self) -> None:
        """Writes the copy as it is by now, with links to what else will lie in its folder."""
        shutil.rmtree(self.copy, ignore_errors=True)
        self.files = copying.files_of(self.ported, self.options.data)
        copying.put(self.files, self.copy)
        copying.link_others(self.files, self.folder, self.copy)

    def their_object(self, module: str) -> str:
        """Returns the object that ca65 makes of a source, made once."""
        if module not in self.made:
            path = os.path.join(self.room, f"theirs{len(self.made)}.o")
            try:
                self.theirs.assemble(self.ported.project.texts[module].path, path)
                self.made[module] = path
            except Refused as said:
                self.made[module] = said
        found = self.made[module]
        if isinstance(found, Refused):
            raise found
        return found

    def our_object(self, module: str, name: str = "ours.o") -> str:
        """Returns the object that bin65 makes of a source's copy."""
        path = os.path.join(self.room, name)
        self.ours().assemble(module, path)
        return path

    # The program.

    def linked_by_cc65(self, whole: Whole) -> Linked:
        """Returns the program as cc65's tools link the original, with the exports that its objects use."""
        inputs = [self.their_object(it) for it in whole.sources]
        for number, library in enumerate(whole.libraries):
            inputs.append(os.path.join(self.room, f"theirs{number}.lib"))
            self.theirs.archive(inputs[-1], [self.their_object(it) for it in library.members], self.room)
        symbols = [w for name, number in self.options.symbols.items() for w in ("-D", f"{name}={number}")]
        try:
            found = self.theirs.link(whole.theirs, inputs, os.path.join(self.room, "link"), symbols)
        except Refused as why:
            raise why.of_script(whole.script) from None
        return replace(found, exports={it: value for it, value in found.exports.items() if it in found.used})

    def linked_by_bin65(self, whole: Whole) -> Linked:
        """Returns the program as bin65 links the copy. Objects bear the numbers of their sources."""
        numbers = {it: number for number, it in enumerate(whole.modules())}
        made = {it: self.our_object(it, f"{number}.o") for it, number in numbers.items()}
        inputs = [made[it] for it in whole.sources]
        for number, library in enumerate(whole.libraries):
            inputs.append(os.path.join(self.room, f"ours{number}.lib"))
            self.ours().archive(inputs[-1], [made[it] for it in library.members], self.room)
        inputs += [self.our_object(it, f"own{number}.o") for number, it in enumerate(self.ported.project.own_sources)]
        try:
            return self.ours().link(whole.ours, inputs, os.path.join(self.room, "link"))
        except Refused as why:
            raise why.of_script(whole.script) from None

    def filled(self, whole: Whole, cc65: Linked, bin65: Linked,
               is_equal: Callable[[Linked, Linked], bool]) -> List[str]:
        """Returns the unused rows up to which cc65 alone fills its files, if these differ by nothing
        else."""
        found = filling.filled(whole.ours, cc65, bin65)
        try:
            again = None if found is None else self.linked_by_bin65(replace(whole, ours=found[0]))
        except Refused:
            return []
        return [] if found is None or again is None or not is_equal(cc65, again) else found[1]

    def finder(self, whole: Whole, bin65: Linked) -> Finder:
        """Returns what finds the lines of bytes of the program."""
        modules: Dict[str, LinkedModule] = {}
        for number, it in enumerate(whole.modules()):
            modules[f"{number}.o"] = LinkedModule(it, self.leaves(it) or [])
        return Finder(self.ported, whole.ours, bin65, modules)

    # Sources alone.

    def settle(self, modules: Sequence[str]) -> None:
        """Compares each source alone, and mends forms until nothing changes."""
        pending = set(modules)
        for left in range(ROUNDS, 0, -1):
            self.put()
            progress = Progress("sources compared", len(pending))
            for it in sorted(pending):
                self.outcomes[it] = self.outcome(it)
                progress.step()
            progress.end()
            if left == 1:  # nothing is edited after the last comparison
                break
            longer = {it for it in pending if self.is_lengthened(it)}
            differing = {it for it in pending if self.outcomes[it].debug and not self.outcomes[it].is_same}
            measure = self.measured(differing)
            count, spread = measure.settled()
            spread.sizes, spread.imports = self.sizes(), self.imports()
            if not spread <= self.spread:
                self.spread.add(spread)
                self.ported = self.port(self.spread)
                pending = set(modules)
            elif count or longer:
                changed = {self.ported.names.get(it, it) for it in measure.files()}
                pending = {it for it in modules if it in differing | longer or self.ported.project.closure(it) & changed}
            else:
                break

    def outcome(self, module: str) -> Outcome:
        """Builds a source alone by both tools and compares."""
        found = Outcome()
        try:
            theirs = self.their_object(module)
        except Refused as said:
            found.theirs = str(said)
            return found
        try:
            ours = self.our_object(module)
        except Refused as said:
            found.ours = str(said)
            found.debug = self.debug(module, theirs) if self.unsized() else ""
            return found
        self.linked(found, module, theirs, ours)
        project = self.ported.project
        if not found.is_compared and unasserted.has_assertions(self.ported, project.closure(module)):
            try:
                self.linked(found, module, *self.unasserted(module))
            except (Refused, Problem):
                return found
        return found

    def unasserted(self, module: str) -> Tuple[str, str]:
        """Returns the two objects of a source without its assertions."""
        folder = tempfile.mkdtemp(dir=self.room)
        theirs, ours = os.path.join(folder, "theirs.o"), os.path.join(self.room, "ours.o")
        unasserted.their_object(self.ported, self.theirs, module, os.path.join(folder, "root"), theirs)
        unasserted.our_copy(self.files, self.ours(), os.path.join(folder, "copy")).assemble(module, ours)
        self.linked_trees.append(os.path.join(folder, "root"))
        return theirs, ours

    def linked(self, found: Outcome, module: str, theirs: str, ours: str) -> None:
        """Links a source's two objects by the first two placements by which they link."""
        links = 0
        for placement in alone.PLACEMENTS:
            links += self.placed(found, self.script(module, theirs, placement), theirs, ours)
            if links == alone.ENOUGH:
                break

    def placed(self, found: Outcome, script: str, theirs: str, ours: str) -> bool:
        """Links a source's two objects by one script; False where neither linker links, which tells nothing."""
        sides: List[Union[Linked, Refused]] = []
        tools: List[Tuple[Union[Theirs, Ours], str]] = [(self.theirs, theirs), (self.ours(), ours)]
        for tool, made in tools:
            try:
                sides.append(tool.link(script, [made], os.path.join(self.room, "link")))
            except Refused as said:
                sides.append(said)
        cc65, bin65 = sides
        if isinstance(cc65, Linked):
            found.debug = cc65.debug
        if isinstance(cc65, Linked) and isinstance(bin65, Linked):
            found.is_compared = True
            if found.is_same and not is_same(cc65, bin65):
                found.is_same, found.sides = False, (script, cc65, bin65)
        elif isinstance(cc65, Linked) or isinstance(bin65, Linked):
            found.is_compared, found.is_same = True, False
            name, why = ("bin65", bin65) if isinstance(cc65, Linked) else ("ld65", cc65)
            found.refusal = f"{name} alone refuses to link it: {why}"
        return isinstance(cc65, Linked) or isinstance(bin65, Linked)

    # Forms.

    def is_lengthened(self, module: str) -> bool:
        """Returns whether bin65 refuses an instruction whose operand is too large for the short form, and has `a:` before it now: a scope
        around it defines the name once more further down."""
        message = message_of(self.outcomes[module].ours)
        if message is None or message.line is None or message.text != "out of range":
            return False
        line = Line(os.path.normpath(message.file), message.line)
        origin, measure = self.ported.origin(line), Measure(self.ported)
        if origin is None or measure.head(line) not in words.MNEMONICS:
            return False
        leaves = of_debug_file(self.debug(module, self.their_object(module)), self.key)
        sizes = {it.size for it in leaves if it.lines[-1] == origin}
        return sizes == {3} and measure.put(line, Pair(3, Leaf("", 0, 2, (line,))))

    def unmeasured(self, debugs: Iterable[str]) -> List[Line]:
        """Returns the lines with an operand whose size isn't written there, if no debug file has them."""
        leaves = (leaf for it in debugs for leaf in of_debug_file(it, self.key))
        met, project = {line for it in leaves for line in it.lines}, self.ported.project
        paths = dict.fromkeys(self.ported.names[it] for it in sorted(project.outputs))
        lines = [(Line(path, it.number), it.text) for path in paths for it in project.logical(path)]
        return [line for line, text in lines if line not in met and has_open_size(text)]

    def measured(self, modules: Set[str]) -> Measure:
        """Returns the sizes of the lines of these sources, and of those that share a file with them in which a line differs."""
        measure, done = Measure(self.ported), set()
        waiting = set(modules)
        while waiting:
            for it in sorted(waiting):
                done.add(it)
                leaves, debug = self.leaves(it), self.outcomes[it].debug
                if leaves is not None and debug:
                    measure.take(of_debug_file(debug, self.key), leaves)
            files = {self.ported.names.get(it, it) for it in measure.files()}
            waiting = {it for it in self.outcomes if it not in done and self.ported.project.closure(it) & files}
        return measure

    def script(self, module: str, theirs: str, placement: alone.Placement) -> str:
        """Returns a script that links a source alone."""
        if module not in self.needs:
            self.needs[module] = alone.needs_of(theirs)
        return alone.script_of(self.needs[module], placement)

    def debug(self, module: str, theirs: str) -> str:
        """Returns the debug file of a source that cc65 alone takes; nothing where it can't be linked alone."""
        for placement in alone.PLACEMENTS:
            try:
                return self.theirs.link(self.script(module, theirs, placement), [theirs], os.path.join(self.room, "link")).debug
            except Refused:
                continue
        return ""

    def unsized(self) -> Set[Line]:
        """Returns the lines that were said since their size isn't known."""
        return {Line(self.ported.places[os.path.realpath(it.path)], it.line) for it in self.ported.findings if it.note == SIZE_UNKNOWN}

    def sizes(self) -> Dict[Line, int]:
        """Returns how many bytes cc65 has of the lines whose size wasn't known, where each time they are the same."""
        wanted = self.unsized()
        found: Dict[Line, Set[int]] = {}
        for outcome in self.outcomes.values() if wanted else ():
            for leaf in of_debug_file(outcome.debug, self.key):
                if leaf.lines[-1] in wanted:
                    found.setdefault(leaf.lines[-1], set()).add(leaf.size)
        return {line: next(iter(sizes)) for line, sizes in found.items() if len(sizes) == 1}

    def imports(self) -> Dict[str, Sequence[str]]:
        """Returns the names that cc65's objects import, of modules with an .autoimport that was reported."""
        paths = {self.ported.places[os.path.realpath(it.path)] for it in self.ported.findings if it.note == AUTOIMPORT}
        made = {it: self.made.get(it) for it in self.outcomes if paths & self.ported.project.closure(it)} if paths else {}
        return {module: alone.needs_of(it).imports for module, it in made.items() if isinstance(it, str)}

    def key(self, name: str) -> str:
        """Returns the file of the tree that a path of a debug file names; nothing for another file."""
        path = os.fsdecode(name.encode("latin-1"))
        root = next((it for it in self.linked_trees if path.startswith(it + "/")), "")
        place = os.path.realpath(path[len(root) :])
        return self.ported.places.get(place, "")

    def leaves(self, module: str) -> Optional[List[Leaf]]:
        """Returns which lines of the copy put which bytes, where bin65 takes it."""
        ours, folder = self.ours(), tempfile.mkdtemp(dir=self.room)
        source = os.path.join(self.copy, module)
        wanted = BuildOptions("", [source], [os.path.join(self.copy, it) for it in ours.include], ours.define, [], "")
        builder = Builder(self.program, wanted, folder, Constants.NONE)
        try:
            unit = builder.assemble(source, "object", "object")
            closure = Closure(source, wanted.folders)
            marks, sizes = builder.marks(unit, closure, LinkedTree(os.path.join(folder, "copies")))
        except Problem:
            return None
        finally:
            shutil.rmtree(folder, ignore_errors=True)
        return of_marks(marks, sizes, lambda place: os.path.relpath(place, self.copy))


def is_same(cc65: Linked, bin65: Linked) -> bool:
    """Returns whether two links have the same files, segments of the same sizes, and exports of the same values."""
    return cc65.files == bin65.files and cc65.sizes == bin65.sizes and not other_exports(cc65, bin65)
