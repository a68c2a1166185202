"""The tree of links: a file that is replaced has its new text by every path that leads to it, and the user's file keeps its own."""
import os
import tempfile

import rows
from work65.frontend.linked_tree import LinkedTree

# Links, and where they lead: to a folder beside, to one further up, to the folder itself, and to a file.
LINKS = {"work/near": "../shared", "work/deep/up": "..", "work/self": ".", "work/one.inc": "../shared/a.inc"}
FILES = ("work/main.s", "work/deep/b.inc", "shared/a.inc", "shared/other.inc")
# The name of the file that is replaced, seen from work/, and paths by which the new text is there; and some by which the old one is.
REPLACED = {
    "main.s": ("main.s self/main.s deep/up/main.s ../work/main.s near/../work/main.s", "deep/b.inc near/a.inc"),
    "near/a.inc": ("near/a.inc ../shared/a.inc self/near/a.inc", "near/other.inc main.s one.inc"),
    "../shared/a.inc": ("near/a.inc ../shared/a.inc deep/up/near/a.inc", "near/other.inc"),
    "deep/b.inc": ("deep/b.inc self/deep/b.inc near/../work/deep/b.inc", "main.s"),
    "deep/up/deep/b.inc": ("deep/b.inc deep/up/deep/b.inc", "main.s"),
    "one.inc": ("one.inc self/one.inc", "near/a.inc ../shared/a.inc"),
    "new.s": ("new.s self/new.s", "main.s"),
}


def text_of(path):
    """The text of a file."""
    with open(path, encoding="latin-1") as it:
        return it.read()


class LinkedTrees(rows.Rows):
    """Trees of links."""

    def setUp(self):
        self.was = os.getcwd()
        self.folder = tempfile.TemporaryDirectory()
        self.room = os.path.realpath(self.folder.name)
        for name in FILES:
            os.makedirs(f"{self.room}/{os.path.dirname(name)}", exist_ok=True)
            with open(f"{self.room}/{name}", "w", encoding="latin-1") as it:
                it.write(f"old {name}")
        for name, to in LINKS.items():
            os.symlink(to, f"{self.room}/{name}")
        os.mkdir(f"{self.room}/trees")
        os.chdir(f"{self.room}/work")

    def tearDown(self):
        os.chdir(self.was)
        self.folder.cleanup()

    def replaced(self, name, prefix=""):
        """Replaces a file; returns the texts by all paths of its row, within the tree and outside of it."""
        tree = LinkedTree(tempfile.mktemp(dir=f"{self.room}/trees"))
        tree.put(prefix + name, "new \xe9")
        new, old = (it.split() for it in REPLACED[name])
        inside = [text_of(os.path.join(tree.here, tree.inside(prefix + it))) for it in new + old]
        outside = [text_of(it) for it in new + old if os.path.exists(it)]
        tree.restore()
        restored = [text_of(os.path.join(tree.here, it)) for it in new + old if os.path.exists(it)]
        return [it == "new \xe9" for it in inside], any(it.startswith("new") for it in outside), restored == outside

    def wanted(self):
        """Every path of a row, and whether the new text is there; outside of the tree it is nowhere, and it can be taken back."""
        return {name: ([True] * len(new.split()) + [False] * len(old.split()), False, True) for name, (new, old) in REPLACED.items()}

    def test_relative(self):
        self.rows(self.wanted(), self.replaced)

    def test_absolute(self):
        self.rows(self.wanted(), lambda name: self.replaced(name, f"{self.room}/work/"))

    def test_inside(self):
        tree = LinkedTree(f"{self.room}/trees/one")
        self.rows({"a.s": "a.s", "../a.s": "../a.s", f"{self.room}/work/a.s": f"{tree.root}{self.room}/work/a.s"}, tree.inside)
        self.assertEqual(tree.here, f"{tree.root}{self.room}/work")

    def test_folders(self):
        tree = LinkedTree(f"{self.room}/trees/one")
        tree.put("main.s", "")
        self.rows({"deep": True, "main.s": False}, lambda name: os.path.islink(f"{tree.here}/{name}"))
        tree.put("deep/b.inc", "")
        self.rows({"deep": False, "deep/b.inc": False, "main.s": False}, lambda name: os.path.islink(f"{tree.here}/{name}"))
