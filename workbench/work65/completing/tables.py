"""The possible words of a command line, read from argparse's tables; and bin65's own command lines as such tables."""
import argparse
from enum import Enum
from typing import Iterator, NamedTuple, Tuple


class Takes(Enum):
    """The kind of word that is completed."""

    NOTHING = "nothing"
    TEXT = "text"
    FILE = "file"
    FOLDER = "folder"
    SCRIPT = "script"
    COMMAND = "command"
    CHOICE = "choice"


class Argument(NamedTuple):
    """A word without an option before it, or the value of an option: its name in the usage, and what it may be."""

    name: str
    takes: Takes
    choices: Tuple[str, ...] = ()
    is_repeated: bool = False


class Option(NamedTuple):
    """An option by all its names, with its value. An option without one takes nothing."""

    names: Tuple[str, ...]
    value: Argument
    help: str


class Command(NamedTuple):
    """A subcommand."""

    name: str
    help: str
    options: Tuple[Option, ...]
    words: Tuple[Argument, ...]


class CommandLine(NamedTuple):
    """A program: the options before a subcommand, and the subcommands."""

    name: str
    options: Tuple[Option, ...]
    commands: Tuple[Command, ...]


BY_NAME = {
    **dict.fromkeys(("FILE", "FILE.dbg", "SOURCE", "PATH", "PROGRAM", "INPUT", "LIBRARY", "MAP", "OLD", "NAME=FOLDER", "NAME=FOLDER|FILES"), Takes.FILE),
    **dict.fromkeys(("DIR", "FOLDER"), Takes.FOLDER),
    **dict.fromkeys(("N", "LABEL", "NAME[=NUMBER]", "NAME=NUMBER"), Takes.TEXT),
    "SCRIPT": Takes.SCRIPT,
    "COMMAND": Takes.COMMAND,
}


def program_of(parser: argparse.ArgumentParser) -> CommandLine:
    """Returns what a parser with subcommands accepts."""
    parts = next(it for it in parser._actions if isinstance(it, argparse._SubParsersAction))
    helps = {it.dest: it.help or "" for it in parts._choices_actions}
    commands = [_command(name, helps[name], it) for name, it in parts.choices.items()]
    return CommandLine(parser.prog, tuple(_options(parser)), tuple(commands))


def _command(name: str, about: str, parser: argparse.ArgumentParser) -> Command:
    words = [_word(it) for it in parser._actions if not it.option_strings]
    return Command(name, about, tuple(_options(parser)), tuple(words))


def _options(parser: argparse.ArgumentParser) -> Iterator[Option]:
    """Yields a parser's options."""
    for it in parser._actions:
        if it.option_strings:
            yield Option(tuple(it.option_strings), _word(it), it.help or "")


def _word(action: argparse.Action) -> Argument:
    """Returns an option's value or a positional argument."""
    name = str(action.metavar or action.dest)
    is_repeated = isinstance(action, argparse._AppendAction) or action.nargs in ("+", "*")
    if action.nargs == 0:
        return Argument(name, Takes.NOTHING)
    if action.choices is not None:
        return Argument(name, Takes.CHOICE, tuple(map(str, action.choices)), is_repeated)
    return Argument(name, BY_NAME[name], (), is_repeated)


def bin65() -> argparse.ArgumentParser:
    """Returns a parser of bin65's command lines, as bin65's own has them: without help and version."""
    parser = argparse.ArgumentParser(prog="bin65", add_help=False)
    parts = parser.add_subparsers(dest="command", metavar="COMMAND", required=True)
    assemble = parts.add_parser("ca65", add_help=False, help="assemble a source")
    assemble.add_argument("-o", metavar="FILE", help="the object")
    assemble.add_argument("-I", metavar="DIR", action="append", help="a folder of included files")
    assemble.add_argument("-D", metavar="NAME[=NUMBER]", action="append", help="a constant")
    assemble.add_argument("-g", action="store_true", help="accepted, without effect")
    assemble.add_argument("source", metavar="SOURCE")
    link = parts.add_parser("ld65", add_help=False, help="link objects and libraries")
    link.add_argument("-C", metavar="SCRIPT", required=True, help="the linker script")
    link.add_argument("-o", metavar="FILE", help="the output (a.out)")
    link.add_argument("-m", metavar="MAP", help="the file for the map")
    link.add_argument("input", metavar="INPUT", nargs="+")
    archive = parts.add_parser("ar65", add_help=False, help="read or change a library")
    archive.add_argument("operation", metavar="OP", choices=("r", "d", "t", "x"))
    archive.add_argument("library", metavar="LIBRARY")
    archive.add_argument("file", metavar="FILE", nargs="*")
    return parser
