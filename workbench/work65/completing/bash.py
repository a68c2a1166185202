"""Completion for bash, with nothing but bash's own commands."""
from typing import Dict, Iterator, List, Tuple

from work65.completing.tables import Argument, CommandLine, Option, Takes

SCRIPT = """\
# Completes @NAME@ in bash. Made by `work65 completion bash @NAME@`.

# Sets `takes` to what the value of an option may be: of the command $1 the option $2.
_@NAME@_value() {
    case "$1 $2" in
@VALUES@
    *) takes= ;;
    esac
}

# Sets `takes` to what a word alone may be: of the command $1 the one with the number $2.
_@NAME@_word() {
    case "$1 $2" in
@WORDS@
    *) takes= ;;
    esac
}

# Sets `options` to the options of the command $1.
_@NAME@_options() {
    case "$1" in
@OPTIONS@
    esac
}

_@NAME@() {
    local at word command= takes= last= options= count=0 is_value= is_plain= cur=${COMP_WORDS[COMP_CWORD]}
    COMPREPLY=()
    for ((at = 1; at < COMP_CWORD; at++)); do
        word=${COMP_WORDS[at]}
        if [[ $word == = ]]; then is_value=$last
        elif [[ $is_value ]]; then is_value=
        elif [[ ! $is_plain && $word == -- ]]; then is_plain=1
        elif [[ ! $is_plain && $word == -?* ]]; then _@NAME@_value "$command" "$word"; last=$takes; is_value=$takes
        elif [[ ! $command ]]; then command=$word
        else ((count++))
        fi
    done
    if [[ $cur == = ]]; then cur= is_value=$last; fi
    if [[ $is_value ]]; then takes=$is_value
    elif [[ ! $is_plain && $cur == -* ]]; then _@NAME@_options "$command"; takes="=$options"
    elif [[ ! $command ]]; then takes="=@COMMANDS@"
    else _@NAME@_word "$command" "$count"
    fi
    case $takes in
    =*) mapfile -t COMPREPLY < <(compgen -W "${takes#=}" -- "$cur") ;;
    command) mapfile -t COMPREPLY < <(compgen -c -- "$cur") ;;
    text | '') ;;
    *)
        compopt -o filenames 2> /dev/null
        if [[ $takes == script ]]; then mapfile -t COMPREPLY < <(compgen -f -X '!*.cfg' -- "$cur"; compgen -d -- "$cur"); fi
        if [[ $takes == folder ]]; then mapfile -t COMPREPLY < <(compgen -d -- "$cur")
        elif [[ ${#COMPREPLY[@]} == 0 ]]; then mapfile -t COMPREPLY < <(compgen -f -- "$cur")
        fi
        ;;
    esac
}
complete -F _@NAME@ @NAME@
"""


def script(program: CommandLine) -> str:
    """Returns the text that bash reads."""
    words: Dict[str, List[str]] = {}
    repeated: Dict[str, List[str]] = {}
    for command in program.commands:
        for at, word in enumerate(command.words):
            if word.is_repeated:
                repeated.setdefault(_takes(word), []).append(f"'{command.name} '*")
            else:
                words.setdefault(_takes(word), []).append(f"'{command.name} {at}'")
    options = [("''", program.options), *((it.name, it.options) for it in program.commands)]
    listed = [f"    {name}) options='{' '.join(_names(found))}' ;;" for name, found in options]
    parts = {"VALUES": "\n".join(_cases(_values(program))), "WORDS": "\n".join([*_cases(words), *_cases(repeated)]), "OPTIONS": "\n".join(listed),
             "COMMANDS": " ".join(it.name for it in program.commands)}
    text = SCRIPT
    for name, part in parts.items():
        text = text.replace(f"@{name}@", part)
    return text.replace("@NAME@", program.name)


def _takes(word: Argument) -> str:
    """Returns what a word may be, as the script has it: `=` and the choices, or the kind."""
    return f"={' '.join(word.choices)}" if word.takes is Takes.CHOICE else str(word.takes.value)


def _values(program: CommandLine) -> Dict[str, List[str]]:
    """Returns the patterns of the options that have values, by what these may be."""
    found: Dict[str, List[str]] = {}
    for command in program.commands:
        for option in command.options:
            if option.value.takes is not Takes.NOTHING:
                found.setdefault(_takes(option.value), []).extend(f"'{command.name} {it}'" for it in option.names)
    return found


def _cases(patterns: Dict[str, List[str]]) -> Iterator[str]:
    """Yields the branches of a `case`."""
    for takes, found in patterns.items():
        yield f"    {' | '.join(found)}) takes='{takes}' ;;"


def _names(options: Tuple[Option, ...]) -> Iterator[str]:
    for option in options:
        yield from option.names
