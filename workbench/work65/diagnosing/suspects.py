"""Lines that bin65 rejects in any context: it checks them in small sources that contain only such lines."""
import os
from dataclasses import dataclass
from typing import Callable, Dict, Iterator, List, NamedTuple, Optional, Sequence, Set, Tuple

from work65.diagnosing.recovery import BLOCKS, defined_by
from work65.diagnosing.message import message_of
from work65.frontend import grammar, words
from work65.frontend.files import Text, text_of
from work65.frontend.includes import followed
from work65.frontend.statements import Statement, statement_of
from work65.frontend.survey import Survey, surveyed
from work65.frontend.tokens import Kind, Token, line_of
from work65.program import Program

TOGETHER = 64
# Statements whose lines without names mean the same in any context.
ALONE = words.MNEMONICS | words.DATA | {".res", ".align", ".asciiz", ".error", ".warning", ".out"}
# Statements that other lines depend on, or that depend on other lines without naming them.
LINKED = (
    words.CONDITIONS | words.MACRO_BEGINS | words.MACRO_ENDS | words.REPEAT_BEGINS | words.REPEAT_ENDS | words.BARE | set(BLOCKS)
    | set(BLOCKS.values()) | {".elseif", ".else", ".endif", ".proc", ".scope", ".endproc", ".endscope", ".end", ".include", ".incbin",
                              ".exitmacro", ".exitmac", ".local", ".segment", ".assert", ".autoimport"}
)
OPENING = words.CONDITIONS | {".scope", ".proc"}
CLOSING = frozenset((".endif", ".endscope", ".endproc"))
FORM = "no such addressing form"
HEADS = (".import n", ".importzp n")


@dataclass(frozen=True)
class Suspect:
    """A line that may be rejected: its file, its index, its text, the text to check, the lines to put before it, and bin65's
    message. To check an addressing form, all names are replaced by `n`, once an absolute import and once a zero page one."""

    file: str
    at: int
    line: str
    judged: str
    heads: Tuple[str, ...] = ("",)
    said: str = ""


Plain = Tuple[int, Statement, Tuple[Token, ...]]


class File(NamedTuple):
    """A file of the copy, and its lines outside macros, repeats and structures."""

    text: Text
    plain: List[Plain]


def outside(lines: Sequence[str], tree: Survey) -> Iterator[Plain]:
    """Yields the lines outside macros, repeats and structures."""
    depth = 0
    for at, text in enumerate(lines):
        tokens = line_of(text).tokens
        if not tokens:
            continue
        statement = statement_of(tokens, tree.is_macro)
        head = statement.head
        depth -= head in words.MACRO_ENDS or head in words.REPEAT_ENDS or head in BLOCKS.values()
        if depth <= 0:
            yield at, statement, tokens
        depth += head in words.MACRO_BEGINS or head in words.REPEAT_BEGINS or head in BLOCKS
        depth = max(depth, 0)


def suspects_in(source: str, folders: Sequence[str], defines: Sequence[str], lines_of: Callable[[str], List[str]]) -> List[Suspect]:
    """Returns the lines of a source and its included files that can be checked without their context."""
    first = text_of(source)
    texts = [Text(it.path, lines_of(it.path), it.ends) for it in [first, *followed([first], folders)]]
    if any("/*" in line for it in texts for line in it.lines):
        return []
    tree = surveyed(texts, folders)
    files = [File(it, list(outside(it.lines, tree))) for it in texts]
    found: List[Suspect] = []
    for file in files:
        found += _by_form(file, tree)
    known = _defined(files, tree, {(it.file, it.at) for it in found}) | {it.split("=")[0] for it in defines}
    constants = constants_in(files)
    for file in files:
        found += _with_names(file, tree, known, constants)
    order = {it.path: number for number, it in enumerate(texts)}
    return sorted(found, key=lambda it: (order[it.file], it.at))


def _is_call(statement: Statement, tree: Survey) -> bool:
    return bool(statement.body) and tree.is_macro(statement.body[0].text)


def _names(statement: Statement) -> List[str]:
    """Returns the names after the first word of a statement."""
    return [it.text for it in statement.rest if it.kind is Kind.NAME and it.lower not in words.REGISTERS]


def _is_bound(statement: Statement) -> bool:
    """Returns whether a statement depends on its location: by a cheap or unnamed label, `*` or a scope."""
    return any(it.kind in (Kind.CHEAP, Kind.UNNAMED) or it.text in ("*", "::", ":") for it in statement.rest)


def _without_label(line: str, statement: Statement) -> str:
    """Returns a line without its label."""
    return line[statement.body[0].start :] if statement.label is not None and statement.has_colon else line


def _form(statement: Statement) -> str:
    """Returns an instruction with all names replaced by `n`."""
    is_name = [it.kind is Kind.NAME and it.lower not in words.REGISTERS for it in statement.rest]
    return f"{statement.head} " + " ".join("n" if named else it.text for named, it in zip(is_name, statement.rest))


def _by_form(file: File, tree: Survey) -> Iterator[Suspect]:
    """Yields lines with a syntax error, lines without names, and instructions whose addressing form is to be checked."""
    path = file.text.path
    for at, statement, tokens in file.plain:
        head = statement.head
        if not statement.body or head in LINKED or _is_call(statement, tree):
            continue
        line = file.text.lines[at]
        if grammar.wrong(tuple(map(grammar.shape_of, tokens))) is not None:
            yield Suspect(path, at, line, _without_label(line, statement))
        elif head in ALONE and not _is_bound(statement):
            if not _names(statement):
                if head not in words.BRANCHES:
                    yield Suspect(path, at, line, _without_label(line, statement))
            elif head in words.MNEMONICS and statement.rest[0].text != "#":
                yield Suspect(path, at, line, _form(statement), HEADS)


def _defined(files: Sequence[File], tree: Survey, without: Set[Tuple[str, int]]) -> Set[str]:
    """Returns all names that may be defined. In macros, repeats, structures and calls every name counts."""
    found: Set[str] = set()
    for text, plain_lines in files:
        plain = {at: statement for at, statement, _ in plain_lines}
        for at, line in enumerate(text.lines):
            statement = plain.get(at)
            if statement is None or _is_call(statement, tree):
                found |= {it.text for it in line_of(line).tokens if it.kind is Kind.NAME}
            elif (text.path, at) not in without or statement.label is not None:
                found |= defined_by(statement)
    return found


def _with_names(file: File, tree: Survey, known: Set[str], constants: Dict[str, str]) -> Iterator[Suspect]:
    """Yields lines all of whose names are undefined, and data and immediate operands all of whose names are independent
    constants."""
    head = "\n".join(constants.values())
    for at, statement, tokens in file.plain:
        is_data = statement.head in words.DATA
        if not is_data and statement.head not in words.MNEMONICS or _is_bound(statement) or _is_call(statement, tree):
            continue
        names = _names(statement)
        if not names or grammar.wrong(tuple(map(grammar.shape_of, tokens))) is not None:
            continue
        line = file.text.lines[at]
        if not known.intersection(names):
            yield Suspect(file.text.path, at, line, _without_label(line, statement))
        elif (is_data or statement.rest[0].text == "#") and all(it in constants for it in names):
            yield Suspect(file.text.path, at, line, _without_label(line, statement), (head,))


def constants_in(files: Sequence[File]) -> Dict[str, str]:
    """Returns the definitions of independent constants by name: outside scopes and conditions, defined once, and computed from
    numbers and other independent constants."""
    times: Dict[str, int] = {}
    found: Dict[str, Tuple[str, Set[str]]] = {}
    for text, plain_lines in files:
        plain, depth = {at: it for at, it, _ in plain_lines}, 0
        for at, line in enumerate(text.lines):
            statement = plain.get(at)
            names = {it.text for it in line_of(line).tokens if it.kind is Kind.NAME} if statement is None else defined_by(statement)
            times.update({it: times.get(it, 0) + 1 for it in names})
            if statement is not None:
                depth += (statement.head in OPENING) - (statement.head in CLOSING)
                if depth == 0 and _is_constant(statement):
                    found[statement.body[0].text] = (line, set(_names(statement)))
    found = {name: it for name, it in found.items() if times[name] == 1}
    while True:
        kept = {name: it for name, it in found.items() if it[1] <= found.keys()}
        if len(kept) == len(found):
            return {name: line for name, (line, _) in found.items()}
        found = kept


def _is_constant(statement: Statement) -> bool:
    """Returns whether a statement defines a constant that doesn't depend on its location."""
    is_definition = bool(statement.rest) and statement.rest[0].text in ("=", ":=")
    return is_definition and statement.label is None and not _is_bound(statement)


class LineChecker:
    """Runs bin65 on small sources and keeps the results."""

    def __init__(self, program: Program, folder: str) -> None:
        self.program, self.folder = program, folder
        self.known: Dict[Tuple[str, str], Optional[str]] = {}

    def said_of(self, suspects: Sequence[Suspect]) -> List[Optional[str]]:
        """Returns bin65's message for each line. None if it accepts the line, or if that depends on a name's kind."""
        for head in dict.fromkeys(head for it in suspects for head in it.heads):
            self.judge([it.judged for it in suspects if head in it.heads], head)
        return [self.verdict(it) for it in suspects]

    def verdict(self, it: Suspect) -> Optional[str]:
        """Returns the message for a line from the results so far."""
        said = [self.known.get((head, it.judged)) for head in it.heads]
        return said[0] if len(said) == 1 or said == [FORM, FORM] else None

    def judge(self, lines: Sequence[str], head: str) -> None:
        """Checks lines that weren't checked before, in groups, with `head` before them."""
        waiting = [it for it in dict.fromkeys(lines) if (head, it) not in self.known]
        for at in range(0, len(waiting), TOGETHER):
            self.judge_some(waiting[at : at + TOGETHER], head)

    def judge_some(self, lines: Sequence[str], head: str) -> None:
        """Checks a group of lines: removes the line that bin65 rejects, until it rejects none."""
        left, before = list(lines), head.count("\n") + 1
        while True:
            said = self.run([head, *left])
            at = -1 if said is None else said[0] - 1 - before
            if said is None or not 0 <= at < len(left) or not left[at]:
                break
            self.known[head, left[at]] = None if said[1] == "section too large" else said[1]
            left[at] = ""
        for it in filter(None, left):
            self.known.setdefault((head, it), None)

    def run(self, lines: Sequence[str]) -> Optional[Tuple[int, str]]:
        """Assembles lines. Returns the line number and the text of the error, None if there is none."""
        with open(os.path.join(self.folder, "alone.s"), "w", encoding="latin-1", newline="") as it:
            it.write("\n".join(lines) + "\n")
        ran = self.program.run(["ca65", "-o", "", "--", "alone.s"], self.folder)
        message = message_of(os.fsdecode(ran.err).rstrip("\n").split("\n")[-1]) if ran.status else None
        return None if message is None or message.line is None else (message.line, message.text)
