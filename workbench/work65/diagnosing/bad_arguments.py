"""Explains the message *bad arguments* for a command line."""
import re
from typing import List, Optional, Sequence

from work65.frontend import words
from work65.frontend.tokens import value_of

WITH_VALUE = {"ca65": ("-o", "-I", "-D"), "ld65": ("-C", "-o", "-m"), "ar65": ()}
HELP = ("-h", "-V", "--help", "--version")


def why_bad(line: Sequence[str]) -> Optional[str]:
    """Returns the error in the words after `bin65`, None if none is found."""
    if not line or line[0] not in WITH_VALUE:
        return "the first word is none of ca65, ld65 and ar65"
    tool, rest, plain = line[0], list(line[1:]), []
    seen: List[str] = []
    while rest:
        word = rest.pop(0)
        if word == "--":
            plain += rest
            break
        if not word.startswith("-") or word == "-":
            plain.append(word)
            continue
        option = next((it for it in (*WITH_VALUE[tool], "-g") if word.startswith(it) and not word.startswith("--")), None)
        if option is None or (option == "-g" and tool != "ca65"):
            return _foreign(word)
        if option in seen and option not in ("-I", "-D"):
            return f"{option} is there twice"
        seen.append(option)
        value = word[len(option) :].lstrip("=")
        if option != "-g" and not value:
            if not rest or rest[0].startswith("-"):
                return f"{option} lacks what belongs behind it"
            value = rest.pop(0)
        bad = _definition(value) if option == "-D" else None
        if bad:
            return bad
    return _count(tool, plain, seen)


def _foreign(word: str) -> str:
    return "there is no help and no version option" if word in HELP else f"{word} is an option that isn't here"


def _definition(value: str) -> Optional[str]:
    """Returns the error in the value of a -D, None if it is valid."""
    name, _, number = value.partition("=")
    if not re.fullmatch(r"[A-Za-z_]\w*", name, re.A) or name.lower() in words.MNEMONICS | words.REGISTERS:
        return f"{name} is no name that a source may have"
    if number and value_of(number) is None:
        return f"{number} isn't written as a number of a source"
    return None


def _count(tool: str, plain: Sequence[str], seen: Sequence[str]) -> Optional[str]:
    """Returns the error in the words that are no options, None if they are valid."""
    if tool == "ca65":
        return None if len(plain) == 1 else "there is no source" if not plain else "there are two sources: one run each"
    if tool == "ld65":
        return "-C with the script isn't there" if "-C" not in seen else "there is no object" if not plain else None
    if plain and plain[0] not in ("r", "d", "t", "x"):
        return f"{plain[0]} is none of r, d, t and x"
    return "the library isn't there" if len(plain) < 2 else None
