"""Completion for fish, a line for each word."""
from typing import Iterator

from work65.completing.tables import Command, CommandLine, Option, Takes

FILES, FOLDERS = "-r -F", "-x -a '(__fish_complete_directories)'"
VALUES = {
    Takes.NOTHING: "", Takes.TEXT: "-x", Takes.FILE: FILES, Takes.FOLDER: FOLDERS, Takes.SCRIPT: "-x -a '(__fish_complete_suffix .cfg)'",
    Takes.COMMAND: FILES,
}


def script(program: CommandLine) -> str:
    """Returns the text that fish reads."""
    return "\n".join([f"# Completes {program.name} in fish. Made by `work65 completion fish {program.name}`.", "", *_lines(program)]) + "\n"


def _lines(program: CommandLine) -> Iterator[str]:
    """Yields the lines. Files are completed only where a line says so."""
    begin, none = f"complete -c {program.name}", "-n __fish_use_subcommand"
    yield f"{begin} -f"
    for option in program.options:
        yield f"{begin} {none} {_option(option)}"
    for command in program.commands:
        yield f"{begin} {none} -a {command.name} -d {_quoted(command.help)}"
    for command in program.commands:
        where = f"__fish_seen_subcommand_from {command.name}"
        yield from (f"{begin} -n '{where}' {_option(it)}" for it in command.options)
        yield from (f"{begin} -n '{where}{it}" for it in _words(command))


def _quoted(text: str) -> str:
    """Returns a text as one word of the shell."""
    return "'" + text.replace("\\", "\\\\").replace("'", "\\'") + "'"


def _option(option: Option) -> str:
    """Returns what says an option's names, its value and its meaning."""
    names = [f"-l {it[2:]}" if it.startswith("--") else f"-s {it[1:]}" for it in option.names]
    value = option.value
    takes = f"-x -a {_quoted(' '.join(value.choices))}" if value.takes is Takes.CHOICE else VALUES[value.takes]
    return " ".join(it for it in (*names, takes, f"-d {_quoted(option.help)}" if option.help else "") if it)


def _words(command: Command) -> Iterator[str]:
    """Yields the rest of the line of each positional argument, from the end of its condition. Counts options as arguments, too."""
    for at, word in enumerate(command.words, 2):
        there = f"; and test (count (commandline -opc)) -{'ge' if word.is_repeated else 'eq'} {at}'"
        if word.takes is Takes.CHOICE:
            yield f"{there} -a {_quoted(' '.join(word.choices))}"
        elif word.takes is Takes.COMMAND:
            yield f"{there} -x -a '(__fish_complete_subcommand)'"
        else:
            yield "' -F" if len(command.words) == 1 else f"{there} -F"
