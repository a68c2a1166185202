"""A copy of the file system made of links, in which single files are replaced while the user's own stay as they are."""
import os
from typing import Set

from work65.frontend.files import place_of


class LinkedTree:
    """A folder that represents `/`. A folder on the way to a replaced file is a folder of the tree, with a link for each entry; all
    other folders are links to the user's."""

    def __init__(self, root: str) -> None:
        self.root = root
        self.folders: Set[str] = set()
        self.replaced: Set[str] = set()
        self.open(os.path.realpath("."))

    @property
    def here(self) -> str:
        """The folder of the tree that represents the current one."""
        return self.root + os.path.realpath(".")

    def inside(self, path: str) -> str:
        """Returns the path of a file for a program that runs in `here`. A relative path is the same there."""
        is_absolute = os.path.isabs(path)
        at = "/" if is_absolute else os.path.realpath(".")
        for part in os.path.dirname(path).split("/"):
            at = os.path.realpath(os.path.join(at, part))
            self.open(at)
        return self.root + path if is_absolute else path

    def open(self, folder: str) -> None:
        """Makes a folder, by its true path, and those above it folders of the tree. A link to a folder leads into the tree, too."""
        if folder in self.folders or not os.path.isdir(folder):
            return
        self.folders.add(folder)
        made = self.root + folder.rstrip("/")
        if folder != "/":
            self.open(os.path.dirname(folder))
            if os.path.islink(made):
                os.remove(made)
        os.mkdir(made)
        try:
            names = os.listdir(folder)
        except OSError:
            return
        for name in names:
            place = os.path.join(folder, name)
            is_link = os.path.islink(place) and os.path.isdir(place)
            os.symlink(self.root + os.path.realpath(place) if is_link else place, os.path.join(made, name))

    def put(self, name: str, text: str) -> None:
        """Replaces a file. Each character of the text is a byte."""
        self.inside(name)
        place = place_of(name)
        copy = self.root + place
        if os.path.islink(copy):
            os.remove(copy)
        with open(copy, "w", encoding="latin-1", newline="") as it:
            it.write(text)
        self.replaced.add(place)

    def restore(self) -> None:
        """Replaces all copies by links again."""
        for place in self.replaced:
            os.remove(self.root + place)
            os.symlink(place, self.root + place)
        self.replaced = set()
