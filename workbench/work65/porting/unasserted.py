"""A source and its copy without their assertions, for sources that no placement satisfies. Lines keep their numbers."""
import re
from typing import Iterable

from work65.frontend.linked_tree import LinkedTree
from work65.porting.copying import put
from work65.porting.port import Ported
from work65.porting.tools import Ours, Theirs

ASSERTION = re.compile(rb"^([ \t]*(?:@?[A-Za-z_]\w*[ \t]*:|:)?[ \t]*)\.assert\b[^\n]*", re.I | re.M)


def without(data: bytes) -> bytes:
    """Returns a text without its assertions."""
    return ASSERTION.sub(rb"\1", data)


def has_assertions(ported: Ported, files: Iterable[str]) -> bool:
    """Returns whether one of these files of the tree has an assertion."""
    return any(".assert" in line.lower() for it in files for line in ported.project.texts[it].lines)


def their_object(ported: Ported, theirs: Theirs, module: str, root: str, made: str) -> None:
    """Has ca65 assemble a source without assertions, in a folder that stands for the root of all folders."""
    project = ported.project
    texts = [project.texts[it] for it in project.closure(module)]
    tree = LinkedTree(root)
    for it in texts:
        text = "".join(line + end for line, end in zip(it.lines, it.ends))
        tree.put(it.path, without(text.encode("latin-1")).decode("latin-1"))
    theirs.assemble(project.texts[module].path, made, tree)


def our_copy(files: "dict[str, bytes]", ours: Ours, copy: str) -> Ours:
    """Returns the copy without assertions, in a folder of its own."""
    put({path: without(data) for path, data in files.items()}, copy)
    return Ours(ours.program, copy, ours.include, ours.define)

