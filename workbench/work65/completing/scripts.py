"""The scripts of each shell for each program, and where `make install` puts them."""
from typing import Dict

from work65.completing import bash, fish, zsh
from work65.completing.tables import CommandLine, bin65, program_of

PROGRAMS = ("work65", "bin65")
SHELLS = {"bash": bash.script, "zsh": zsh.script, "fish": fish.script}
PLACES = {"bash": "bash-completion/completions/{}", "zsh": "zsh/site-functions/_{}", "fish": "fish/vendor_completions.d/{}.fish"}


def program(name: str) -> CommandLine:
    """Returns what the command lines of a program may have."""
    from work65.main import parser_of  # the parser itself reads the commands, of which one is that of these scripts

    return program_of(bin65() if name == "bin65" else parser_of([]))


def script_of(shell: str, name: str) -> str:
    """Returns the script of a shell for a program."""
    return SHELLS[shell](program(name))


def all_scripts() -> Dict[str, str]:
    """Returns all scripts, by where they are in a folder `share`."""
    return {place.format(name): script_of(shell, name) for shell, place in PLACES.items() for name in PROGRAMS}
