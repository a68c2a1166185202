"""Completion for zsh, by its function _arguments."""
from typing import Iterator

from work65.completing.tables import Argument, CommandLine, Option, Takes

SCRIPT = """\
#compdef @NAME@
# Completes @NAME@ in zsh. Made by `work65 completion zsh @NAME@`.

_@NAME@() {
    local curcontext="$curcontext" state state_descr line ret=1
    typeset -A opt_args
    local -a commands
    commands=(
@COMMANDS@
    )
    _arguments -C \\
@OPTIONS@        '1:command:->command' \\
        '*::word:->word' && ret=0
    case $state in
    command) _describe -t commands command commands && ret=0 ;;
    word)
        case $words[1] in
@PARTS@
        esac
        ;;
    esac
    return ret
}

_@NAME@ "$@"
"""
ACTIONS = {
    Takes.TEXT: " ", Takes.FILE: "_files", Takes.FOLDER: "_files -/", Takes.SCRIPT: '_files -g "*.cfg"', Takes.COMMAND: "_normal",
}
_JOINED = " \\\n                "


def script(program: CommandLine) -> str:
    """Returns the text that zsh reads."""
    commands = [f"        {_quoted(f'{it.name}:{_escaped(it.help)}')}" for it in program.commands]
    options = [f"        {spec} \\\n" for option in program.options for spec in _specs(option)]
    branches = []
    for command in program.commands:
        specs = [*(spec for it in command.options for spec in _specs(it)), *(_word(it, at) for at, it in enumerate(command.words, 1))]
        branches += [f"        {command.name})", f"            _arguments {_JOINED.join(specs)} && ret=0", "            ;;"]
    parts = {"COMMANDS": "\n".join(commands), "OPTIONS": "".join(options), "PARTS": "\n".join(branches), "NAME": program.name}
    text = SCRIPT
    for name, part in parts.items():
        text = text.replace(f"@{name}@", part)
    return text


def _quoted(text: str) -> str:
    """Returns a text as one word of the shell."""
    return "'" + text.replace("'", "'\\''") + "'"


def _escaped(text: str) -> str:
    """Returns a text that has no meaning in a specification."""
    return "".join(f"\\{it}" if it in "\\:[]" else it for it in text)


def _action(word: Argument) -> str:
    return f"({' '.join(word.choices)})" if word.takes is Takes.CHOICE else ACTIONS[word.takes]


def _specs(option: Option) -> Iterator[str]:
    """Yields the specifications of an option, one for each name: a name excludes the others, and itself unless it may be repeated."""
    value = option.value
    others = f"({' '.join(option.names)})" if len(option.names) > 1 and not value.is_repeated else ""
    for name in option.names:
        told = f"[{_escaped(option.help)}]"
        if value.takes is not Takes.NOTHING:
            name += "=" if name.startswith("--") else "+"
            told += f":{value.name}:{_action(value)}"
        yield _quoted(("*" if value.is_repeated else others) + name + told)


def _word(word: Argument, at: int) -> str:
    """Returns the specification of a positional argument. Arguments after the name of a command belong to that command."""
    place = "*:" if word.takes is Takes.COMMAND else "*" if word.is_repeated else str(at)
    return _quoted(f"{place}:{word.name}:{_action(word)}")
