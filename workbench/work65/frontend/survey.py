"""Surveys a set of files: their macros, defines and features, and the files that they include."""
import os
from dataclasses import dataclass, field
from typing import Dict, Iterable, List, Optional, Set, Tuple

from work65.frontend import words
from work65.frontend.files import Text, text_of
from work65.frontend.tokens import Kind, Token, line_of
from work65.problem import Problem

ASMINC = ("/usr/share/cc65/asminc", "/usr/local/share/cc65/asminc")


@dataclass
class Survey:
    """The macros of all files, each with its definitions as file and line, and the names of defines, features and structures."""

    macros: Dict[str, List[Tuple[str, int]]] = field(default_factory=dict)
    missing: List[str] = field(default_factory=list)
    is_whole: bool = True
    defines: Set[str] = field(default_factory=set)
    features: Set[str] = field(default_factory=set)
    structures: Set[str] = field(default_factory=set)
    names: Set[str] = field(default_factory=set)

    def is_macro(self, name: str) -> bool:
        """Returns whether a name is that of a macro or a define."""
        return name in self.macros or name in self.defines


def surveyed(texts: Iterable[Text], folders: Iterable[str] = (), names: Iterable[str] = ()) -> Survey:
    """Surveys files, and the files of cc65's asminc that they include. `names` are those of -D."""
    tree = Survey(names=set(names))
    texts = list(texts)
    known = {os.path.basename(it.path) for it in texts}
    wanted: List[str] = []
    for text in texts:
        wanted += _look(text, tree)
    seen: Set[str] = set()
    while wanted:
        name = wanted.pop()
        base = os.path.basename(name)
        if base in known or name in seen:
            continue
        seen.add(name)
        found = asminc_file(name, folders)
        if found is None:
            tree.is_whole = False
            tree.missing.append(name)
        else:
            wanted += _look(found, tree)
    return tree


def asminc_file(name: str, folders: Iterable[str] = ()) -> Optional[Text]:
    """Reads a file of these folders or of cc65's asminc, None if it can't be read."""
    places = [*folders, os.environ.get("CA65_INC", ""), *ASMINC]
    for folder in places:
        path = os.path.join(folder, name)
        if folder and os.path.isfile(path):
            try:
                return text_of(path)
            except Problem:
                return None
    return None


def _look(text: Text, tree: Survey) -> List[str]:
    """Notes the definitions of a file. Returns the names of the files that it includes."""
    included = []
    for number, line in enumerate(text.lines, 1):
        tokens = line_of(line).tokens
        if tokens and tokens[0].kind is Kind.NAME:
            tree.names.add(tokens[0].text)
        if "." not in line:
            continue
        for at, token in enumerate(tokens[:4]):
            if token.kind is Kind.DIRECTIVE:
                included += _note(token.lower, tokens[at + 1 :], text.path, number, tree)
                break
    return included


def _note(word: str, rest: Tuple[Token, ...], path: str, number: int, tree: Survey) -> List[str]:
    """Notes a directive. Returns the name of the file that it includes, if any."""
    if not rest:
        return []
    name = rest[0].text
    if word in (".proc", ".define", ".macro", ".mac"):
        tree.names.add(name)
    if word in words.MACRO_BEGINS:
        tree.macros.setdefault(name, []).append((path, number))
    elif word == ".define":
        tree.defines.add(name)
    elif word in (".struct", ".union"):
        tree.structures.add(name)
    elif word == ".feature":
        tree.features |= {it.lower for it in rest if it.kind is Kind.NAME}
    elif word == ".macpack" and name.lower() in words.PACKAGES:
        for macro in words.PACKAGES[name.lower()]:
            tree.macros.setdefault(macro, [])
    elif word == ".include" and rest[0].kind is Kind.STRING:
        return [name.strip('"')]
    return []
