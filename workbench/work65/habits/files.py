"""Files of .include and .incbin that bin65 doesn't find."""
import os
from typing import Dict, Iterable, Iterator, List, Optional, Sequence, Set, Tuple

from work65.frontend.files import Text, place_of
from work65.frontend.includes import candidates, find_file, names_in, path_of_bytes, word_of
from work65.frontend.statements import Statement
from work65.frontend.survey import asminc_file

Wrong = Tuple[str, str, str]


class Files:
    """The files of a run of `check`, and which of them include which."""

    def __init__(self, texts: Iterable[Text], folders: Sequence[str]) -> None:
        self.texts = list(texts)
        self.folders = folders
        self.names = {os.path.basename(it.path) for it in self.texts}
        self.includers: Dict[str, Set[str]] = {}
        for text in self.texts:
            for name in self.included(text):
                self.includers.setdefault(place_of(name), set()).add(text.path)

    def included(self, text: Text) -> Iterator[str]:
        """Yields the files that a file includes."""
        for word in names_in(text):
            name = find_file(word, text.path, self.folders)
            if name is not None:
                yield name

    def wrong(self, statement: Statement, text: Text, is_in_macro: bool) -> Optional[Wrong]:
        """Returns the name of a file that bin65 doesn't find, with the habit and its cure. None if bin65 finds the file, or if the
        line names none."""
        word = word_of(statement)
        if word is None or statement.head not in (".include", ".incbin"):
            return None
        places = self.texts if is_in_macro else [text]  # bin65 starts from the file that has the call
        folders = self.folders if statement.head == ".include" else []
        if any(os.path.isfile(name) for it in places for name in candidates(word, it.path, folders)):
            return None
        shown = f'"{word}"'
        if statement.head == ".incbin":
            return shown, "incbin-file", ""
        outer = self.beside_outer(word, text)
        if outer is not None:
            return shown, "include-file", f'cc65 finds it beside {outer}: give its folder by -I, or write the name relative to the folder of this file'
        if asminc_file(path_of_bytes(word) or word, self.folders) or os.path.basename(word) in self.names:
            return None
        return shown, "include-file", "not found in the folder of this file, nor in those of -I"

    def beside_outer(self, word: str, text: Text) -> Optional[str]:
        """Returns the file in whose folder cc65 finds an included one: one that includes this file, directly or indirectly."""
        waiting: List[str] = sorted(self.includers.get(place_of(text.path), ()))
        seen = {text.path}
        while waiting:
            path = waiting.pop(0)
            if path in seen:
                continue
            seen.add(path)
            if any(os.path.isfile(it) for it in candidates(word, path, [])):
                return path
            waiting += sorted(self.includers.get(place_of(path), ()))
        return None
