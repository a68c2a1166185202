"""work65 explain: messages of bin65 with their source lines and with the page's paragraphs."""
import argparse
import os
import signal
import subprocess
import sys
from typing import IO, Iterator, List, Optional, Sequence, Tuple

from work65 import pages
from work65.diagnosing import bad_arguments
from work65.diagnosing import causes, recovery
from work65.diagnosing.message import Message, message_of
from work65.frontend import words
from work65.formats.objects import HEAD, read_object
from work65.frontend.files import Text, read_bytes, text_of
from work65.frontend.includes import followed
from work65.frontend.statements import parts_of, statement_in
from work65.frontend.survey import Survey, surveyed
from work65.frontend.tokens import Kind
from work65.habits import sources
from work65.habits.files import Files
from work65.habits.table import BY_WORD
from work65.problem import Problem

HELP = "add the source line and an explanation to each message"
FIRST = "        "


def add_arguments(parser: argparse.ArgumentParser) -> None:
    """Adds the arguments of this subcommand."""
    said = "after --: the command whose messages to explain (default: read standard input)"
    parser.add_argument("words", nargs="*", metavar="COMMAND", help=said)


def run(arguments: argparse.Namespace) -> int:
    """Explains the messages on standard input or of a command. Returns the command's status."""
    all_entries = pages.entries()
    if not arguments.words:
        _explain(sys.stdin.buffer, all_entries, (), sys.stdout)
        return 0
    try:
        ran = subprocess.Popen(arguments.words, stderr=subprocess.PIPE)
    except OSError as error:
        raise Problem(f"{arguments.words[0]}: {error.strerror}", 127) from error
    assert ran.stderr is not None
    try:
        _explain(ran.stderr, all_entries, arguments.words, sys.stderr)
    except KeyboardInterrupt:
        ran.send_signal(signal.SIGINT)
        ran.wait()
        raise
    status = ran.wait()
    return status if status >= 0 else 128 - status


def _explain(stream: IO[bytes], all_entries: List[pages.PageEntry], line: Sequence[str], out: IO[str]) -> None:
    """Prints each line, and below a message its explanation."""
    for raw in stream:
        text = raw.decode("utf-8", "replace").rstrip("\n")
        print(text, file=out)
        message = message_of(text)
        if message is not None:
            for it in explained(message, all_entries, line):
                print(it, file=out)
        out.flush()


def explained(message: Message, all_entries: List[pages.PageEntry], line: Sequence[str] = ()) -> Iterator[str]:
    """Yields the lines below a message: the source line, its cause, and the page's paragraph."""
    text = _text(message.file)
    if text is not None and message.line is not None and 0 < message.line <= len(text.lines):
        yield f"{message.line:>6} | {text.lines[message.line - 1].strip()}"
    entry = pages.entry_for(message.text, all_entries)
    told = list(_causes(message, entry, text, line))
    yield from (FIRST + it for it in told)
    if entry is not None and not (told and entry.rows):
        yield from (FIRST + it for it in entry.lines(88))


def _text(file: str) -> Optional[Text]:
    if not os.path.isfile(file):
        return None
    try:
        return text_of(file)
    except Problem:
        return None


def _causes(message: Message, entry: Optional[pages.PageEntry], text: Optional[Text], line: Sequence[str]) -> Iterator[str]:
    """Yields the causes that are found in the line itself."""
    if message.text == "bad arguments" and line:
        at = next((at for at, it in enumerate(line) if os.path.basename(it).startswith("bin65")), None)
        why = bad_arguments.why_bad(line[at + 1 :]) if at is not None else None
        if why:
            yield f"It is: {why}."
    if message.text.startswith("unresolved: "):
        yield from _uses(message.text[12:].split(", "), line)
    if text is None or text.is_script or message.line is None or message.line > len(text.lines):
        return
    texts = [text, *followed([text], [it[2:] for it in line if it.startswith("-I")])]
    tree = surveyed(texts)
    begin = recovery.span_of(text.lines, message.line - 1)[0]
    if begin < message.line - 1:
        yield f"It is in one of the lines {begin + 1} to {message.line}, which are repeated."
    elif called := _called(text, message.line, tree):
        counts = _counts(text.lines[message.line - 1], called, texts)
        if message.text == "too many arguments" and counts[1] > counts[0]:
            yield f"The macro {called} has {_counted(counts[0], 'parameter')}, and the call has {_counted(counts[1], 'argument')}."
        else:
            yield f"It is in the lines of the macro {called}, which is called here."
    elif message.text == "statement not understood":
        yield from (f"It is: {it}." for it in rows_for(text.lines, message.line - 1, entry))
    if message.text in ("statement not understood", "directive not understood", "bad character", "bad number", "no such addressing form"):
        for it in sources.found_in([text], tree, Files(texts, ()), texts[1:]):
            is_here = (it.path, it.line) == (text.path, message.line)
            if is_here and it.habit.name not in ("form", "include-file", "incbin-file"):
                yield f"{it.word}: {it.cure} (MIGRATING: {it.habit.heading})"


def _uses(names: Sequence[str], line: Sequence[str]) -> Iterator[str]:
    """Yields where the objects of a command line use these names."""
    for path in (it for it in line if it.endswith(".o") and os.path.isfile(it)):
        data = read_bytes(path)
        for it in dict.fromkeys(read_object(data).uses if data[:5] == HEAD else ()):
            if it.name in names:
                yield f"{it.name} is used in {it.file}:{it.line} (module {path})."


def _called(text: Text, line: int, tree: Survey) -> str:
    """Returns the macro that a line calls, empty if it calls none that is defined before it."""
    body = statement_in(text.lines[line - 1]).body
    places = tree.macros.get(body[0].text, []) if body else []
    is_before = any(path != text.path or number < line for path, number in places)
    return body[0].text if is_before else ""


def _counted(count: int, what: str) -> str:
    """Returns a count with its noun."""
    return f"{count} {what}" if count == 1 else f"{count or 'no'} {what}s"


def _counts(call: str, name: str, texts: Sequence[Text]) -> Tuple[int, int]:
    """Returns the number of a macro's parameters, and of the arguments of a call."""
    parameters = 0
    for statement in (statement_in(line) for text in texts for line in text.lines):
        if statement.head in words.MACRO_BEGINS and statement.rest and statement.rest[0].text == name:
            parameters = sum(it.kind is Kind.NAME for it in statement.rest[1:])
    return parameters, len(parts_of(statement_in(call).rest, has_parentheses=False))


def rows_for(lines: Sequence[str], at: int, entry: Optional[pages.PageEntry]) -> List[str]:
    """Returns the rows of the page's table that are causes of a line."""
    cause = cause_at(lines, at)
    if cause is None:
        return []
    rows = [what for what, source in entry.rows if row_cause(source) is cause] if entry is not None else []
    return [pages.plain(it) for it in rows] or [cause.value]


def cause_at(lines: Sequence[str], at: int) -> Optional[causes.Cause]:
    """Returns the cause of a line of a file, None if it is unknown."""
    later = causes.macros_in(lines, lambda it: it > at)
    return causes.cause_of(lines, at, frozenset(BY_WORD), later, causes.scopes_before(lines, at))


def row_cause(source: str) -> Optional[causes.Cause]:
    """Returns the cause of a row's rejected source: that of its first line that has one."""
    lines = source.split("\n")
    for at, it in enumerate(lines):
        cause = cause_at(lines, at)
        if cause is not None and cause is not causes.Cause.OPERAND or _is_refused(it):
            return cause
    return None


def _is_refused(line: str) -> bool:
    """Returns whether a line is rejected by its form."""
    body = statement_in(line).body
    return bool(body) and not sources.is_plain(line, False) and body[0].lower not in sources.LOOKED_AT
