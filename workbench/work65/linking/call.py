"""A command line of cc65's linker: its options, its inputs in order, and where it searches them."""
import os
import re
import subprocess
from dataclasses import dataclass, field
from typing import Callable, Dict, List, Mapping, NamedTuple, Optional, Sequence, Tuple

from work65.problem import Problem

# Options with a value, by their long and short forms.
LONG = {
    "--cfg-path": "cfg-path", "--config": "C", "--dbgfile": "dbgfile", "--define": "D",
    "--force-import": "u", "--lib": "lib", "--lib-path": "L", "--mapfile": "m",
    "--module-id": "module-id", "--obj": "obj", "--obj-path": "obj-path", "--start-addr": "S",
    "--target": "t",
}  # fmt: skip
SHORT = "CDLSmotu"
ONCE = (("C", "t"), ("o",), ("m",), ("Ln",), ("S",))
TWICE_ALLOWED = "--allow-multiple-definition"
OPENS, CLOSES = ("-(", "--start-group"), ("-)", "--end-group")
# Options without a value: those that only show a text, and others.
SHOWS = re.compile(r"-[Vh].*|--help|--version", re.S)
PLAIN = re.compile(rf"-v|-vm.*|--large-alignment|{TWICE_ALLOWED}", re.S)
DEFINED = re.compile(r"(?P<name>[A-Za-z_]\w*)=(?P<value>.+)", re.A | re.S)
LIBRARIES, OBJECTS = (".lib", ".a"), (".o", ".obj")
OUTPUT = "a.out"
MODULE_IDS = 0xFFFF
# The variable with the linker that a script stands for in a build.
WATCHED = "WORK65_LD65"
NUMBER = re.compile(
    r"\s*(?P<sign>[-+]?)(?:(?:\$|0[xX])(?P<hex>[0-9A-Fa-f]+)|(?P<octal>0[0-7]*)|(?P<decimal>\d+))",
    re.A,
)


class Input(NamedTuple):
    """An input: the name as given, its path, and the number of its group (0 outside of groups)."""

    name: str
    path: str
    group: int


@dataclass
class Call:
    """A link that a command line asks for."""

    config: str = ""
    output: str = OUTPUT
    inputs: List[Input] = field(default_factory=list)
    symbols: Dict[str, int] = field(default_factory=dict)
    imports: List[str] = field(default_factory=list)
    start: Optional[int] = None
    allows_twice: bool = False
    map: str = ""
    labels: str = ""
    debug: str = ""


@dataclass
class Words:
    """A command line in parts: options with values, inputs as (kind, name, group), other words."""

    options: Dict[str, List[str]] = field(default_factory=dict)
    inputs: List[Tuple[str, str, int]] = field(default_factory=list)
    plain: List[str] = field(default_factory=list)

    def last(self, key: str, otherwise: str = "") -> str:
        """Returns the last value of an option."""
        return self.options.get(key, [otherwise])[-1]


def read_call(words: Sequence[str], environment: Mapping[str, str], tool: str) -> Optional[Call]:
    """Reads a command line of ld65; None if it asks for no link."""
    parts = _parts(_with_answers(words))
    if not parts.inputs:
        return None
    for keys in ONCE:
        if sum(len(parts.options.get(it, [])) for it in keys) > 1:
            raise Problem(f"-{' or -'.join(keys)} is given twice, which ld65 doesn't take")
    defined = list(map(_defined, parts.options.get("D", [])))
    symbols = dict(defined)
    if len(symbols) < len(defined):
        raise Problem("-D defines a symbol twice, which ld65 doesn't take")
    if not 0 <= _number(parts.last("module-id", "0")) <= MODULE_IDS:
        raise Problem("--module-id is out of range")
    places = _Places(parts, environment, tool)
    start = parts.last("S")
    return Call(
        places.config(), parts.last("o", OUTPUT), [places.input(*it) for it in parts.inputs],
        symbols, parts.options.get("u", []), _number(start) if start else None,
        TWICE_ALLOWED in parts.plain, parts.last("m"), parts.last("Ln"), parts.last("dbgfile"),
    )  # fmt: skip


def _with_answers(words: Sequence[str]) -> List[str]:
    """Returns the words of a command line with those of response files, which have one a line."""
    found: List[str] = []
    for word in words:
        if not word.startswith("@"):
            found.append(word)
            continue
        try:
            with open(word[1:], encoding="utf-8", errors="surrogateescape", newline="\n") as it:
                found += filter(None, (line.strip(" \t\r\n") for line in it))
        except OSError as error:
            raise Problem(f"{word[1:]}: {error.strerror}") from error
    return found


def _parts(words: Sequence[str]) -> Words:
    """Splits a command line into options and inputs; none if it shows a text."""
    found, left, group, is_open = Words(), list(reversed(words)), 0, False
    while left:
        word = left.pop()
        key, value = _option(word)
        if word in OPENS or word in CLOSES:
            if is_open == (word in OPENS):
                raise Problem(f"{word}: a group is {'' if is_open else 'not '}open")
            is_open = word in OPENS
            group += is_open
        elif SHOWS.fullmatch(word):
            return Words()
        elif PLAIN.fullmatch(word):
            found.plain.append(word)
        elif not key and word.startswith("-"):
            raise Problem(f"{word}: no option of ld65's")
        else:
            if key and not value and not left:
                raise Problem(f"{word}: the option lacks its value")
            value = value or (left.pop() if key else word)
            if key in ("", "lib", "obj"):
                found.inputs.append((key, value, group * is_open))
            else:
                found.options.setdefault(key, []).append(value)
    if is_open:
        raise Problem("a group isn't closed")
    return found


def _option(word: str) -> Tuple[str, str]:
    """Returns an option with a value by its key, and the value that is in the same word."""
    if word.startswith("--"):
        return LONG.get(word, ""), ""
    if word.startswith("-Ln"):
        return "Ln", word[3:]
    return (word[1], word[2:]) if word[:1] == "-" and word[1:2] and word[1] in SHORT else ("", "")


def _number(text: str) -> int:
    """Returns a number as C reads it, or a hexadecimal one after $. What follows is ignored."""
    found = NUMBER.match(text)
    if found is None:
        raise Problem(f"{text}: no number that ld65 takes")
    base = 16 if found["hex"] else 8 if found["octal"] else 10
    value = int(found["hex"] or found["octal"] or found["decimal"], base)
    return -value if found["sign"] == "-" else value


def _defined(text: str) -> Tuple[str, int]:
    """Returns the symbol that -D defines, and its value."""
    found = DEFINED.fullmatch(text)
    if found is None:
        raise Problem(f"-D {text}: no name with a value")
    return found["name"], _number(found["value"])


class _Places:
    """Where ld65 searches: the name itself, options, the environment, and cc65's own folders."""

    def __init__(self, words: Words, environment: Mapping[str, str], tool: str) -> None:
        self.words, self.environment, self.tool = words, environment, tool

    def config(self) -> str:
        """Returns the path of the config."""
        target = self.words.last("t")
        name = self.words.last("C") or (f"{target}.cfg" if target else "")
        if not name:
            raise Problem("ld65 is given neither a config nor a target")
        if os.path.exists(name) and not os.path.isfile(name) and not os.path.isdir(name):
            raise Problem(f"{name}: a config can't be read from a pipe")
        return self.found(name, "cfg-path", "CFG")

    def input(self, kind: str, name: str, group: int) -> Input:
        """Returns an input with its path."""
        extension = os.path.splitext(name)[1].lower()
        if kind == "lib" or not kind and extension in LIBRARIES:
            return Input(name, self.found(name, "L", "LIB"), group)
        is_object = kind == "obj" or extension in OBJECTS
        where = ("obj-path", "OBJ") if is_object else ("", "")
        return Input(name, self.found(name, *where), group)

    def found(self, name: str, option: str, variable: str) -> str:
        """Returns the path of a file."""
        home, sub = self.environment.get("CC65_HOME"), variable.lower()
        searches: List[Callable[[], List[str]]] = [
            lambda: [""], lambda: self.words.options.get(option, []),
            lambda: [self.environment.get(f"LD65_{variable}", "")],
            lambda: [os.path.join(home, sub)] if home else [], lambda: self.own(sub),
        ]  # fmt: skip
        for search in searches if variable else searches[:1]:
            for folder in search():
                path = os.path.join(folder, name)
                if os.path.isfile(path):
                    return path
        raise Problem(f"{name}: no such file")

    def own(self, sub: str) -> List[str]:
        """Returns cc65's own folders: the one beside that of targets, which cl65 knows, and those
        beside the linker."""
        if not self.tool:
            return []
        tool = os.path.realpath(self.tool)
        prefix = os.path.dirname(os.path.dirname(tool))
        found = [os.path.join(prefix, sub), os.path.join(prefix, "share", "cc65", sub)]
        words = [os.path.join(os.path.dirname(tool), "cl65"), "--print-target-path"]
        try:
            asked = subprocess.run(words, stdin=subprocess.DEVNULL, capture_output=True)
        except OSError:
            return found
        target = os.path.dirname(os.fsdecode(asked.stdout.strip()))
        return [os.path.join(target, sub), *found] if target else found
