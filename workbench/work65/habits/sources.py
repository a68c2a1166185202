"""Finds constructs in sources that bin65 rejects."""
from functools import lru_cache
from typing import Dict, Iterator, List, Optional, Sequence, Set, Tuple

from work65.frontend import grammar, words
from work65.frontend.conditions import Conditions
from work65.frontend.files import Text, place_of
from work65.frontend.includes import find_file, late, word_of
from work65.frontend.reach import reached
from work65.frontend.segments import HEADS as SEGMENT_HEADS, Segments, short_names
from work65.frontend.statements import Statement, statement_in, statement_of
from work65.frontend.survey import Survey
from work65.frontend.tokens import Kind, LexedLine, line_of
from work65.habits import cheap, marks
from work65.habits.files import Files
from work65.habits.habit import Finding, Habit
from work65.habits.table import BY_NAME, BY_WORD

TELLING = frozenset(BY_WORD)
LOOKED_AT = TELLING | words.LISTS | words.MACRO_BEGINS | words.MACRO_ENDS | words.CONDITIONS | SEGMENT_HEADS | frozenset(
    (".else", ".elseif", ".endif", ".scope", ".proc", ".endscope", ".endproc", ".asciiz", ".include", ".incbin", ".align",
     ".assert", ".setcpu", ".end")
)
# Habits that bin65 rejects even in skipped lines, since these can't be split into tokens.
TOLD = frozenset(("digit", "comment", "bracket", "underline", "quote", "continuation", "long-line"))
LONGEST = 4096
# Features that allow a sign in names.
NAMING = {"at_in_identifiers": "@", "dollar_in_identifiers": "$", "leading_dot_in_identifiers": "."}
CLOSERS = {".endstruct": "struct", ".endunion": "union", ".endenum": "enum"}


class Places:
    """The open macro with its parameters, and open scopes, structures and comments of C."""

    def __init__(self) -> None:
        self.macro: Optional[str] = None
        self.parameters: Set[str] = set()
        self.scopes = 0
        self.segments = Segments()
        self.short: Set[str] = set()
        self.structures: List[str] = []
        self.is_comment = False
        self.is_continued = False

    @property
    def is_plain(self) -> bool:
        """Returns whether a plain line needs no look here."""
        return not (self.is_comment or self.structures or self.is_continued)


@lru_cache(maxsize=1 << 16)
def is_plain(text: str, has_escapes: bool) -> bool:
    """Returns whether bin65 accepts a line anywhere: it opens and closes nothing, and calls no macro."""
    tokens = line_of(text, has_escapes).tokens
    shapes = tuple(map(grammar.shape_of, tokens))
    if len(text) > LONGEST or has_escapes and "\\" in text or not LOOKED_AT.isdisjoint(shapes) or grammar.wrong(shapes) is not None:
        return False
    return not ({"#", "(", "a", "x", "nop", "inc", "dec"} & set(shapes) and marks.is_newer(statement_in(text, has_escapes)))


class Reader:
    """Reads the lines of one file. `files` is None if nobody looks for the files that lines name."""

    def __init__(self, text: Text, tree: Survey, files: Optional[Files] = None) -> None:
        self.text = text
        self.tree = tree
        self.files = files
        self.places = Places()
        self.conditions = Conditions(tree.names)
        self.calls: List[Tuple[Optional[str], str, int]] = []
        self.includes: Set[str] = set()
        self.own: Optional[Set[str]] = None

    def findings(self) -> Iterator[Tuple[Optional[str], Finding]]:
        """Returns the findings, each with the macro around its line."""
        has_escapes = "string_escapes" in self.tree.features
        for number, text in enumerate(self.text.lines, 1):
            if is_plain(text, has_escapes) and self.places.is_plain:
                continue
            line = line_of(text, has_escapes)
            macro = self.places.macro
            if len(text) > LONGEST:
                word = line.tokens[0].text if line.tokens else text[line.comment : line.comment + 8]
                yield macro, Finding(self.text.path, number, word, BY_NAME["long-line"])
            if not line.tokens:
                continue
            for word, habit, note in self.line(line, text):
                yield self.places.macro or macro, Finding(self.text.path, number, word, habit, note)
            if not self.conditions.is_dead:
                self.note_calls(line, number)
            if self.is_over(line):
                return

    def is_over(self, line: LexedLine) -> bool:
        """Returns whether a line is an .end that bin65 certainly reaches, so that it reads no more."""
        if self.places.macro is not None or not all(self.conditions.open):
            return False
        return any(it.lower == ".end" for it in line.tokens) and statement_of(line.tokens, self.tree.is_macro).head == ".end"

    def note_calls(self, line: LexedLine, number: int) -> None:
        """Notes the call of a macro."""
        statement = statement_of(line.tokens, self.tree.is_macro)
        if statement.body and statement.body[0].kind is Kind.NAME and statement.body[0].text in self.tree.macros:
            self.calls.append((self.places.macro, statement.body[0].text, number))

    def line(self, line: LexedLine, text: str) -> Iterator[Tuple[str, Habit, str]]:
        """Yields the findings in a line: the word, the habit, and a cure of its own."""
        places = self.places
        if places.is_comment or "/*" in text:
            yield from self.comment(line, text)
            return
        statement = statement_of(line.tokens, self.tree.is_macro)
        head = statement.head
        was_continued, places.is_continued = places.is_continued, _is_continued(line, text)
        self.conditions.step(statement, places.parameters)
        found = list(self.marked(line, statement, was_continued))
        if self.conditions.is_dead:
            yield from (it for it in found if it[1].name in TOLD)
            return
        yield from found
        if self.files is not None and head in (".include", ".incbin"):
            yield from self.named(statement, self.files)
        self.step(head, statement)
        if not found and not places.structures and head not in CLOSERS and not was_continued:
            yield from self.form(line, statement)

    def comment(self, line: LexedLine, text: str) -> Iterator[Tuple[str, Habit, str]]:
        """Yields the beginning of a comment of C. The lines up to its end have no findings."""
        if not self.places.is_comment and any(it.text == "/" and line.tokens[at + 1 : at + 2] and line.tokens[at + 1].text == "*"
                                              and line.tokens[at + 1].start == it.end for at, it in enumerate(line.tokens)):
            self.places.is_comment = True
            yield "/*", BY_NAME["comment"], ""
        if self.places.is_comment and "*/" in text:
            self.places.is_comment = False

    def marked(self, line: LexedLine, statement: Statement, was_continued: bool) -> Iterator[Tuple[str, Habit, str]]:
        """Yields the findings of a line's words and form."""
        if self.places.structures and statement.head not in CLOSERS:
            for it in line.tokens:
                if it.lower in (".tag", ".struct", ".union"):
                    yield it.text, BY_WORD[it.lower], ""
            return
        if not was_continued:
            yield from marks.label(statement, self.tree)
        seen = set()
        for token in line.tokens:
            for name, note in marks.token(token):
                if name not in seen:
                    seen.add(name)
                    yield token.text, BY_NAME[name], note
            if token.kind is Kind.STRING and "\\" in token.text and "string_escapes" in self.tree.features:
                yield token.text, BY_NAME["escapes"], ""
            if token.lower in TELLING:
                habit = marks.habit_of(token, statement)
                if habit.name not in seen:
                    seen.add(habit.name)
                    yield token.text, habit, ""
        for word, name in marks.statement(statement, self.places.scopes, self.places.parameters, self.tree):
            if name not in seen:
                yield word, BY_NAME[name], ""
        if statement.head in (".importzp", ".globalzp"):
            self.places.short |= {it.text for it in statement.rest if it.kind is Kind.NAME}
        if self.places.segments.is_zero_page and statement.head in words.LISTS and self.places.macro is None:
            own = self.own_names() if statement.head == ".global" else frozenset()
            for word in short_names(statement, own | self.places.short):
                yield word, BY_NAME["zero-page-import"], ""

    def named(self, statement: Statement, files: Files) -> Iterator[Tuple[str, Habit, str]]:
        """Yields the file that a line names if bin65 doesn't find it. Notes an included one that it finds."""
        word = word_of(statement)
        name = find_file(word, self.text.path, files.folders) if word is not None and statement.head == ".include" else None
        if name is not None:
            self.includes.add(place_of(name))
        wrong = files.wrong(statement, self.text, self.places.macro is not None)
        if wrong is not None:
            yield wrong[0], BY_NAME[wrong[1]], wrong[2]

    def own_names(self) -> Set[str]:
        """Returns the names that the file defines, or those of all files if it isn't a source of its own."""
        if self.own is None:
            is_source = self.text.path.lower().endswith((".s", ".asm", ".a65", ".s65"))
            self.own = self.defined() if is_source else self.tree.names
        return self.own

    def defined(self) -> Set[str]:
        """Returns the names that the lines of the file define."""
        statements = [statement_of(line_of(it).tokens, self.tree.is_macro) for it in self.text.lines]
        found = {it.label.text for it in statements if it.label is not None}
        found |= {it.body[0].text for it in statements if it.rest and it.rest[0].text in ("=", ":=")}
        return found | {it.rest[0].text for it in statements if it.head == ".proc" and it.rest}

    def step(self, head: str, statement: Statement) -> None:
        """Follows what a line opens and closes."""
        places = self.places
        if places.macro is None:
            places.segments.step(statement)
        if head in words.MACRO_BEGINS and statement.rest:
            places.macro = statement.rest[0].text
            places.parameters = {it.text for it in statement.rest[1:] if it.kind is Kind.NAME}
        elif head in words.MACRO_ENDS:
            places.macro, places.parameters = None, set()
        elif head in (".scope", ".proc"):
            places.scopes += places.macro is None
        elif head in (".endscope", ".endproc"):
            places.scopes = max(0, places.scopes - (places.macro is None))
        elif head in (".struct", ".union", ".enum"):
            places.structures.append(head)
        elif head in CLOSERS and places.structures:
            places.structures.pop()

    def form(self, line: LexedLine, statement: Statement) -> Iterator[Tuple[str, Habit, str]]:
        """Yields a line that is no statement of bin65 and has no other finding."""
        body = statement.body
        if not body or any(it.text in self.places.parameters for it in line.tokens):
            return
        first = body[0]
        if first.kind is Kind.NAME and first.text in self.tree.macros or first.text in self.tree.defines:
            return
        if any(it.text in self.tree.defines for it in body):
            return
        shapes = tuple(map(grammar.shape_of, line.tokens))
        at = grammar.wrong(shapes)
        if at is None:
            return
        if first.kind is Kind.NAME and not self.tree.is_whole and len(body) > 1 and body[1].text not in ("=", ":="):
            if first.lower not in words.MNEMONICS:
                return
        word = line.tokens[min(at, len(line.tokens) - 1)].text
        signs = "".join(it.text for it in body)
        allowed = [it for it, sign in NAMING.items() if it in self.tree.features and sign in signs]
        note = f"a name that `.feature {allowed[0]}` allows: rename it" if allowed else ""
        yield word, BY_NAME["form"], note


def _is_continued(line: LexedLine, text: str) -> bool:
    """Returns whether a line is continued by the next one."""
    return bool(line.tokens) and line.tokens[-1].text == "\\"


def found_in(texts: List[Text], tree: Survey, files: Optional[Files] = None, included: Sequence[Text] = ()) -> List[Finding]:
    """Returns the findings in the sources and in files that they include; in lines of a macro only if something calls it.

    With `files` it also finds the files that lines name and that bin65 doesn't find."""
    found: List[Tuple[Optional[str], Finding]] = []
    calls: List[Tuple[Optional[str], str, int, str]] = []
    waiting, left = list(texts), {place_of(it.path): it for it in included}
    while waiting:
        text = waiting.pop(0)
        reader = Reader(text, tree, files)
        found += reader.findings()
        found += [(None, Finding(text.path, number, name, BY_NAME["cheap-twice"])) for number, name in cheap.twice(text)]
        for macro, number in late(text.lines):
            found.append((macro or None, Finding(text.path, number, ".include", BY_NAME["include-late"])))
        calls += [(*it, text.path) for it in reader.calls]
        waiting += [left.pop(it) for it in sorted(reader.includes) if it in left]
    by_caller: Dict[Optional[str], List[str]] = {}
    for caller, name, _, _ in calls:
        by_caller.setdefault(caller, []).append(name)
    called = {it for it in reached([None], lambda it: by_caller.get(it, ())) if it is not None}
    kept = [it for macro, it in found if macro is None or macro in called or it.habit.name in TOLD]
    return sorted(kept + _refused_calls(found, calls, called), key=lambda it: (it.path, it.line))


def _refused_calls(found: List[Tuple[Optional[str], Finding]], calls: List[Tuple[Optional[str], str, int, str]],
                   called: Set[str]) -> List[Finding]:
    """Returns the first call in each file of each macro whose lines have a finding."""
    first: Dict[str, Finding] = {}
    for macro, it in found:
        if macro is not None and macro in called and it.habit.name != "include-late":
            first.setdefault(macro, it)
    while True:
        more = {caller: first[name] for caller, name, _, _ in calls if caller is not None and name in first and caller not in first}
        if not more:
            break
        first.update(more)
    seen, refused = set(), []
    for caller, name, line, path in calls:
        if caller is None and name in first and (path, name) not in seen:
            seen.add((path, name))
            it = first[name]
            note = f"bin65 rejects its line {it.path}:{it.line}: {it.word}"
            refused.append(Finding(path, line, name, BY_NAME["macro-call"], note, it.heading))
    return refused
