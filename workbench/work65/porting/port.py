"""Ports a tree: reads it, walks its modules, writes the copy, and says what can't be converted."""
import os
import sys
from dataclasses import dataclass
from typing import Dict, Iterable, Iterator, List, Optional, Sequence, Tuple

from work65.frontend import words
from work65.frontend.files import Text, text_of
from work65.frontend.survey import Survey, surveyed
from work65.frontend.tokens import line_of, value_of
from work65.habits import scripts as script_habits
from work65.habits import sources as source_habits
from work65.habits.habit import Finding, Habit
from work65.porting import condes, packages, scripts
from work65.porting.leaves import Line
from work65.porting.project import OWN, Project, Spread
from work65.porting.script_rows import Usage
from work65.porting.statements import KEPT
from work65.porting.tools import Options, in_decimal
from work65.porting.walk import Walk
from work65.progress import Progress

# The habit of rows that cc65 places otherwise. `work65 check` doesn't find it, since it shows in sources and script together.
PLACE = Habit("script-place", "", "A row with `align`, `start` or `offset` whose segment nobody uses", "")
# How many calls are open at once where files include each other as deep as they may.
FRAMES = 8000


def read_project(paths: Sequence[str], options: Options) -> Project:
    """Returns the project of these files, by their paths below the folder that they have in common."""
    base: str = os.path.commonpath([os.path.dirname(os.path.abspath(it)) for it in paths])
    texts: Dict[str, Text] = {}
    progress = Progress("files", len(paths))
    for it in paths:
        if os.path.isfile(it):
            texts[os.path.relpath(os.path.abspath(it), base)] = text_of(it)
        progress.step()
    progress.end()
    names = {name: value_of(in_decimal(number)) for name, number in ((*it.split("=", 1), "0")[:2] for it in options.define)}
    include, kept = [os.path.abspath(it) for it in options.include], KEPT.intersection(options.features)
    return Project(base, texts, include, options.target, names, options.processor.lower(), kept, symbols=dict(options.symbols),
                   is_fixed=options.is_fixed, sources=list(texts) if options.is_fixed else [])


@dataclass
class Ported:
    """The converted files, the original line of each line, and the constructs that can't be converted."""

    project: Project
    texts: Dict[str, Text]
    origins: Dict[str, List[int]]
    findings: List[Finding]

    def __post_init__(self) -> None:
        self.names = {name: path for path, names in self.project.variants.items() for name in names}
        self.places = {os.path.realpath(self.project.texts[path].path): path for path in self.project.variants}

    def say(self, more: Iterable[Finding]) -> None:
        """Adds findings at lines that have none."""
        unique = {(it.path, it.line): it for it in [*more, *reversed(self.findings)]}
        self.findings = sorted(unique.values(), key=lambda it: (it.path, it.line))

    def origin(self, line: Line) -> Optional[Line]:
        """Returns the line of the original that a line of the copy was; None where it was none."""
        path, numbers = self.names.get(line.path), self.origins.get(line.path, [])
        if path is None or not 0 < line.number <= len(numbers) or numbers[line.number - 1] == 0:
            return None
        return Line(path, numbers[line.number - 1])

    def place(self, path: str, number: int) -> str:
        """Returns a line of the copy as the user knows it."""
        line = self.origin(Line(path, number))
        return f"{path}:{number}" if line is None else f"{self.project.texts[line.path].path}:{line.number}"


def ported(project: Project, spread: Spread, given: Sequence[Text] = ()) -> Ported:
    """Brings all files over. `spread` is what cc65's objects showed so far, and `given` are scripts that aren't in the tree."""
    project.spread = spread
    project.scripts = {path: it for path, it in project.texts.items() if it.is_script}
    project.texts = {path: it for path, it in project.texts.items() if not it.is_script}
    project.survey()
    project.modules_walked = project.modules()
    sys.setrecursionlimit(max(sys.getrecursionlimit(), FRAMES))
    all_scripts = [*project.scripts.values(), *given]
    project.starts = scripts.starts_of(all_scripts[0]) if len(all_scripts) == 1 else {}
    if len(all_scripts) == 1 and project.has_banks():
        project.banks = scripts.banks_of(all_scripts[0])
        project.label_segments = _walk(project)
        project.forget()
    _walk(project)
    found, origins = _written(project)
    _add_tables(project, all_scripts, found, origins)
    findings = list(project.findings.values()) + list(_left(project, found, origins))
    for path, text in project.scripts.items():
        found[path] = _as_text(path, *script_lines(project, text, findings))
    made = Ported(project, found, origins, [])
    made.say(reversed(findings))
    return made


def script_lines(project: Project, text: Text, findings: List[Finding]) -> "Tuple[List[str], Text]":
    """Returns the lines of a script for bin65, for the sources of the tree; what can't be converted is added to the findings."""
    usage = Usage(project.segments, project.segments_there, project.segments_perhaps, project.segments_opened, project.words,
                  bool(project.modules_walked))
    lines, said = scripts.ported(text, usage, project.symbols)
    findings += [Finding(text.path, word.line, word.text, PLACE, note) for word, note in said]
    left = script_habits.found_in(_as_text(text.path, lines, text))
    findings += [Finding(text.path, it.line, it.word, it.habit, it.note) for it in left]
    return lines, text


def _walk(project: Project) -> Dict[str, Dict[Tuple[str, ...], str]]:
    """Walks all modules. Returns the segment of each label of each module."""
    progress, found = Progress("sources", len(project.modules_walked)), {}
    for it in project.modules_walked:
        walk = Walk(project, it)
        walk.whole()
        found[it] = {key: segment for key, segment in walk.context.labels.items() if segment}
        progress.step()
    progress.end()
    for path in list(project.texts):
        if path not in project.outputs:
            Walk(project, path).whole()
    return found


def _add_tables(project: Project, all_scripts: Sequence[Text], found: Dict[str, Text], origins: Dict[str, List[int]]) -> None:
    """Adds the tables of .constructor and its like, as a source of their own."""
    tables = [it for text in all_scripts for it in condes.tables_of(text)]
    lines = condes.source(tables, project.entries, project.texts.values())
    if not lines:
        return
    path = os.path.join(OWN, "condes.s")
    found[path], origins[path] = Text(path, lines, ["\n"] * len(lines)), [0] * len(lines)
    project.own_sources = [path]
    for place, number, why in project.doubtful:
        project.cannot(place, number, why)


def _as_text(path: str, lines: List[str], like: Text) -> Text:
    end = next((it for it in like.ends if it), "\n")
    return Text(path, lines, [end] * len(lines))


def _written(project: Project) -> "Tuple[Dict[str, Text], Dict[str, List[int]]]":
    """Returns the lines of each file as they are written, and which line each was; 0 of those that are left out."""
    found: Dict[str, Text] = {}
    origins: Dict[str, List[int]] = {}
    for path, rows in project.outputs.items():
        lines, numbers = [], []
        own = [(0 if row.is_dead else row.number, line) for row in rows for line in (*row.before, *row.lines)]
        for number, it in [*_target_lines(project, path), *own]:
            lines.append(it)
            numbers.append(number)
        found[path] = _as_text(path, lines, project.texts[path])
        origins[path] = numbers
    for name in project.packages:
        path = os.path.join(OWN, f"{name}.mac")
        lines = packages.text_of(name).rstrip("\n").split("\n")
        found[path] = Text(path, lines, ["\n"] * len(lines))
        origins[path] = list(range(1, len(lines) + 1))
    return found, origins


def _target_lines(project: Project, path: str) -> Iterator[Tuple[int, str]]:
    """Yields the names that -t defines, where a source or what it includes asks for them."""
    if path not in project.modules_walked:
        return
    asked = set().union(*(project.target_names.get(it, set()) for it in project.closure(path)))
    for name in sorted(asked & words.defined_by(project.target)):
        yield 1, f"{name} = 1"


def _left(project: Project, found: Dict[str, Text], origins: Dict[str, List[int]]) -> Iterator[Finding]:
    """Yields what bin65 still refuses, at the lines where it was."""
    names = words.defined_by(project.target) | project.names.keys()
    tree = surveyed(found.values(), (), names)
    tree.features = project.tree.features - {"string_escapes"}
    for it in source_habits.found_in([_without_dead_calls(it, origins[it.path], tree) for it in found.values()], tree):
        numbers = origins[it.path]
        if numbers[min(it.line, len(numbers)) - 1] == 0:
            continue
        original = project.texts[it.path].path if it.path in project.texts else it.path
        yield Finding(original, numbers[min(it.line, len(numbers)) - 1], it.word, it.habit, it.note)


def _without_dead_calls(text: Text, numbers: List[int], tree: Survey) -> Text:
    """Returns a file without the calls that no assembly reaches, so that the lines of their macros don't count for them."""
    lines = list(text.lines)
    for at, number in enumerate(numbers):
        if number == 0 and any(it.text in tree.macros for it in line_of(lines[at]).tokens[:3]):
            lines[at] = ""
    return Text(text.path, lines, text.ends)
