"""The tree that is ported: its files, how they include each other, what they become, and what can't be converted."""
import os
import re
from dataclasses import dataclass, field
from typing import Dict, FrozenSet, List, Optional, Sequence, Set, Tuple

from work65.frontend import words
from work65.frontend.files import Text, text_of
from work65.frontend.includes import path_of_bytes
from work65.frontend.reach import reached
from work65.frontend.statements import Statement, statement_of
from work65.frontend.survey import Survey, asminc_file, surveyed
from work65.frontend.tokens import Kind, Token, line_of
from work65.habits.habit import Finding
from work65.habits.table import BY_NAME
from work65.output import words as words_of_path
from work65.porting.context import RewrittenLine
from work65.porting.guards import guard_of
from work65.porting.leaves import Line
from work65.porting.line import Unportable
from work65.porting.logical import Logical, logical_lines

OWN = "work65"
BANK = re.compile(r"\.bank\b", re.I)
ASKING = re.compile(r"^[ \t]*\.(?:else)?if.*|\.def(?:ined)?\s*\([^()]*\)", re.I)
WORD = re.compile(r"[A-Za-z_]\w*", re.A)
ALL_TARGET_NAMES = frozenset().union(*map(words.defined_by, words.TARGETS))


@dataclass
class Spread:
    """Facts that only cc65's objects show: macros (by name) and repeats (by line) that must be expanded, since their lines have several sizes;
    the sizes of lines that don't follow from their text; and the imports of modules with an .autoimport."""

    macros: Set[str] = field(default_factory=set)
    repeats: Set[Line] = field(default_factory=set)
    sizes: Dict[Line, int] = field(default_factory=dict)
    imports: Dict[str, Sequence[str]] = field(default_factory=dict)

    def __le__(self, other: "Spread") -> bool:
        is_known = self.sizes.keys() <= other.sizes.keys() and self.imports.keys() <= other.imports.keys()
        return is_known and self.macros <= other.macros and self.repeats <= other.repeats

    def add(self, other: "Spread") -> None:
        """Takes up what another one has."""
        self.macros |= other.macros
        self.repeats |= other.repeats
        self.sizes.update(other.sizes)
        self.imports.update(other.imports)


@dataclass
class Project:
    """The tree to port. Paths are relative to `base`; those of cc65's own files begin with `work65/`."""

    base: str
    texts: Dict[str, Text]
    include_folders: Sequence[str]
    target: Optional[str]
    names: Dict[str, Optional[int]] = field(default_factory=dict)
    processor: str = "6502"
    features: FrozenSet[str] = frozenset()
    tree: Survey = field(default_factory=Survey)
    outputs: Dict[str, List[RewrittenLine]] = field(default_factory=dict)
    findings: Dict[Tuple[str, int, str], Finding] = field(default_factory=dict)
    sized_in: Dict[str, Set[str]] = field(default_factory=dict)
    size_name: str = "size"
    packages: Set[str] = field(default_factory=set)
    sizing_macros: Set[str] = field(default_factory=set)
    guards: Set[str] = field(default_factory=set)
    undefined_names: Set[str] = field(default_factory=set)
    target_names: Dict[str, Set[str]] = field(default_factory=dict)
    included: Dict[str, Set[str]] = field(default_factory=dict)
    places: Dict[str, str] = field(default_factory=dict)
    variants: Dict[str, List[str]] = field(default_factory=dict)
    modules_walked: List[str] = field(default_factory=list)
    scripts: Dict[str, Text] = field(default_factory=dict)
    spread: Spread = field(default_factory=Spread)
    is_fixed: bool = False
    sources: List[str] = field(default_factory=list)
    segments: Set[str] = field(default_factory=set)
    segments_there: Set[str] = field(default_factory=set)
    segments_perhaps: Set[str] = field(default_factory=set)
    segments_opened: Set[str] = field(default_factory=set)
    symbols: Dict[str, int] = field(default_factory=dict)
    entries: Dict[Tuple[int, str], int] = field(default_factory=dict)
    banks: Dict[str, int] = field(default_factory=dict)
    starts: Dict[str, int] = field(default_factory=dict)
    label_segments: Dict[str, Dict[Tuple[str, ...], str]] = field(default_factory=dict)
    beyond: List[Finding] = field(default_factory=list)
    doubtful: List[Tuple[str, int, Unportable]] = field(default_factory=list)
    own_sources: List[str] = field(default_factory=list)
    _waiting: List[str] = field(default_factory=list)
    _is_looking: bool = False
    _words: Optional[Set[str]] = None
    _mentioned: Optional[Set[str]] = None
    _logical: Dict[str, List[Logical]] = field(default_factory=dict)
    _globals: Dict[str, List[str]] = field(default_factory=dict)

    def survey(self) -> None:
        """Reads all files once; scripts are kept aside."""
        self.tree = surveyed(self.texts.values(), self.include_folders, self.names)
        for path in list(self.texts):
            self._look(path)
        for path, text in self.texts.items() if self.sizing_macros else ():
            for tokens in (line_of(it).tokens for it in text.lines):
                if any(it.text in self.sizing_macros for it in tokens[:3]):
                    self.sized_in.setdefault(path, set()).update(_names(tokens))

    def _look(self, path: str) -> None:
        """Looks at a file and at those that come into the tree by it, one after the other: they may nest deeply."""
        self._waiting.append(path)
        if self._is_looking:
            return
        self._is_looking = True
        while self._waiting:
            self._look_at(self._waiting.pop())
        self._is_looking = False

    def _look_at(self, path: str) -> None:
        """Notes what a file includes, which sizes it asks for, and what it defines."""
        guard = guard_of(self.texts[path].lines)
        self.guards |= {guard} - self.names.keys() if guard is not None else set()
        targets = words.defined_by(self.target)
        macro, parameters = "", _names(())
        for text in self.texts[path].lines:
            if targets and "__" in text:
                self.target_names.setdefault(path, set()).update(it.text for it in line_of(text).tokens if it.text in targets)
            if "." not in text:
                continue
            tokens = line_of(text).tokens
            if len(tokens) > 1 and tokens[0].text == self.size_name and tokens[1].kind is Kind.DIRECTIVE:
                self.size_name = f"{self.size_name}_of_all"
            for at, it in enumerate(tokens):
                if it.lower == ".sizeof":
                    names = _names(tokens[at:])
                    self.sized_in.setdefault(path, set()).update(names)
                    self.sizing_macros |= {macro} if names & parameters else set()
            statement = statement_of(tokens, lambda _: False)
            if statement.head == ".include" and statement.rest and statement.rest[0].kind is Kind.STRING:
                found = self.include(path, statement.rest[0].text.strip('"'))[0]
                if found is not None:
                    self.included.setdefault(path, set()).add(found)
            elif statement.head in words.MACRO_BEGINS and statement.rest:
                macro, parameters = statement.rest[0].text, _names(statement.rest[1:])
            elif statement.head in words.MACRO_ENDS:
                macro, parameters = "", set()
            elif statement.head in (".undefine", ".undef") and statement.rest:
                self.undefined_names.add(statement.rest[0].text)

    def modules(self) -> List[str]:
        """Returns the files that no other includes, or the sources that are given in the order of a link."""
        inside = set().union(*self.included.values()) if self.included else set()
        return self.sources or [it for it in self.texts if it not in inside and not it.startswith(OWN + os.sep)]

    @property
    def words(self) -> Set[str]:
        """All words of the tree, and the names that were given: a new name is none of them."""
        if self._words is None:
            self._words = {it for text in self.texts.values() for line in text.lines for it in WORD.findall(line)}
        return self._words

    def forget(self) -> None:
        """Forgets what was written, so that all is walked anew; what was learnt of labels stays."""
        for path, names in self.variants.items():
            for name in names:
                if name != path:
                    del self.texts[name]
        self.outputs, self.findings, self.variants, self.entries = {}, {}, {}, {}
        self.doubtful, self.beyond, self.packages = [], [], set()
        self._words = None

    def is_absent(self, name: str) -> bool:
        """Returns whether the tree only asks for a name, and no -D gives it."""
        if self._mentioned is None:
            lines = (line for text in self.texts.values() for line in text.lines)
            self._mentioned = {it for line in lines for it in WORD.findall(ASKING.sub("", line))}
        return self.is_fixed and name not in self._mentioned and name not in self.names

    def is_first(self, module: str) -> bool:
        """Returns whether a module is the first one of the program's link for sure."""
        return self.modules_walked[:1] == [module] and (self.is_fixed or len(self.modules_walked) == 1)

    def has_banks(self) -> bool:
        """Returns whether a source asks for a bank."""
        return any(BANK.search(line) for text in self.texts.values() for line in text.lines)

    def closure(self, path: str) -> Set[str]:
        """Returns a file, and all that it includes."""
        return reached([path], lambda it: self.included.get(it, ()))

    def sized_names(self, module: str) -> FrozenSet[str]:
        """Returns the names of whose sizes a module asks."""
        return frozenset().union(*(self.sized_in.get(it, frozenset()) for it in self.closure(module)))

    def is_macro(self, name: str) -> bool:
        """Returns whether a name is that of a macro or a define."""
        return self.tree.is_macro(name)

    def is_own_macro(self, name: str) -> bool:
        """Returns whether the tree has a macro of this name, so that a package's isn't meant."""
        return any(not path.endswith("longbranch.mac") for path, _ in self.tree.macros.get(name, []))

    def is_single(self, statement: Statement) -> bool:
        """Returns whether a define may become a constant: nothing takes it back."""
        name = statement.rest[0].text if statement.rest else ""
        return name not in self.undefined_names

    def logical(self, path: str) -> List[Logical]:
        """Returns the lines of a file as ca65 reads them."""
        if path not in self._logical:
            self._logical[path] = logical_lines(self.texts[path].lines, True, True)
        return self._logical[path]

    def global_names(self, module: str) -> List[str]:
        """Returns the names that a module's own source defines outside of scopes."""
        if module not in self._globals:
            depth, found = 0, []
            for text in self.texts[module].lines:
                statement = statement_of(line_of(text).tokens, self.is_macro)
                if depth == 0 and statement.label is not None:
                    found.append(statement.label.text)
                if depth == 0 and statement.rest and statement.rest[0].text in ("=", ":="):
                    found.append(statement.body[0].text)
                if statement.head == ".proc" and depth == 0 and statement.rest:
                    found.append(statement.rest[0].text)
                depth += (statement.head in (".scope", ".proc")) - (statement.head in (".endscope", ".endproc"))
            self._globals[module] = found
        return self._globals[module]

    def include(self, path: str, name: str) -> Tuple[Optional[str], str]:
        """Returns the file that an .include names, and the name by which bin65 finds it. A name in a source has a sign for each byte."""
        wanted = path_of_bytes(name)
        if wanted is None:
            return None, name
        found, spelled = self._include(path, wanted)
        return found, name if spelled == wanted else words_of_path(spelled)

    def _include(self, path: str, name: str) -> Tuple[Optional[str], str]:
        """Returns the same, of paths."""
        beside = os.path.normpath(os.path.join(os.path.dirname(path), name))
        if beside in self.texts:
            return beside, name
        for folder in (os.path.join(self.base, os.path.dirname(self.places.get(path, path))), *self.include_folders):
            place = os.path.normpath(os.path.join(folder, name))
            found = os.path.relpath(place, self.base)
            if found in self.texts:
                return found, name if folder in self.include_folders else self.relative(found, path)
            if os.path.exists(place) and not os.path.isdir(place):
                return self._added(found, text_of(place), path, name)
        own = os.path.join(OWN, name)
        text = None if own in self.texts else asminc_file(name, self.include_folders)
        if own not in self.texts and text is None:
            return None, name
        return self._added(own, text, path, name)

    def _added(self, found: str, text: Optional[Text], path: str, name: str) -> Tuple[str, str]:
        """Returns a file that wasn't named and is included: it comes into the tree, one from outside of it into a folder of its own."""
        key = found
        if found.startswith(".."):
            key = os.path.join(OWN, os.path.basename(found))
            while text is not None and self.places.get(key, found) != os.path.relpath(text.path, self.base):
                key = os.path.join(os.path.dirname(key), f"other_{os.path.basename(key)}")
        if key not in self.texts and text is not None:
            self.texts[key] = text
            self.places[key] = os.path.relpath(text.path, self.base)
            self._look(key)
            grown = surveyed([text], self.include_folders, ())
            self.tree.macros.update({it: at for it, at in grown.macros.items() if it not in self.tree.macros})
            self.tree.defines |= grown.defines
        return key, self.relative(key, path)

    def package(self, path: str, name: str) -> str:
        """Returns the file of a package, as a file names it."""
        self.packages.add(name)
        return os.path.relpath(os.path.join(OWN, f"{name}.mac"), os.path.dirname(path) or ".")

    def keep(self, path: str, rows: List[RewrittenLine], module: str) -> str:
        """Keeps what a file became, and answers its name. What means other things in another module is one more file."""
        for name in self.variants.setdefault(path, []):
            if self._joined(self.outputs[name], rows):
                return name
        name = path if not self.variants[path] else self._free_name(path, module)
        self.variants[path].append(name)
        self.outputs[name] = rows
        if name != path:
            self.texts[name] = self.texts[path]
        return name

    def _joined(self, before: List[RewrittenLine], rows: List[RewrittenLine]) -> bool:
        """Joins two readings of a file where they agree in all lines that either of them assembles."""
        living = [(one, other) for one, other in zip(before, rows) if not one.is_dead and not other.is_dead]
        if any((one.lines, one.before) != (other.lines, other.before) for one, other in living):
            return False
        for one, other in zip(before, rows):
            if one.is_dead and not other.is_dead:
                one.lines, one.before, one.is_dead = other.lines, other.before, False
        return True

    def _free_name(self, path: str, module: str) -> str:
        """Returns a name for another reading of a file."""
        stem, end = os.path.splitext(path)
        name = f"{stem}_{os.path.splitext(os.path.basename(module))[0]}"
        while f"{name}{end}" in self.texts:
            name += "_"
        return f"{name}{end}"

    def relative(self, file: str, path: str) -> str:
        """Returns a file as another one names it."""
        return os.path.relpath(file, os.path.dirname(path) or ".")

    def is_target_name(self, name: str) -> Optional[bool]:
        """Returns whether a name that targets define is defined; None where no target is given, or it is another name."""
        if self.target is None or name not in ALL_TARGET_NAMES or name in self.names:
            return None
        return name in words.defined_by(self.target)

    def cannot(self, path: str, number: int, why: Unportable) -> None:
        """Notes a line that can't be converted."""
        self.findings.setdefault((path, number, why.habit), Finding(self.texts[path].path, number, why.word, BY_NAME[why.habit], why.note))


def _names(tokens: Sequence[Token]) -> Set[str]:
    """Returns the names among tokens."""
    return {it.text for it in tokens if it.kind is Kind.NAME}
