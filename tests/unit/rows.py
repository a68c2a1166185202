"""Shared by the unit tests of work65's front end: tests as tables of rows, and tokens as texts.

Expected values follow from docs/LANGUAGE.md, docs/SCRIPTS.md and the manual of cc65's ca65; none was copied from what work65 prints."""
import os
import sys
import unittest

sys.path.insert(0, os.path.join(os.path.dirname(os.path.abspath(__file__)), os.pardir, os.pardir, "workbench"))
sys.dont_write_bytecode = True
from work65.frontend.statements import statement_of  # noqa: E402
from work65.frontend.tokens import Kind, line_of  # noqa: E402

# How the rows name the kinds of tokens.
SIGNS = {
    Kind.NAME: "n", Kind.CHEAP: "@", Kind.DIRECTIVE: ".", Kind.NUMBER: "0", Kind.CHARACTER: "'", Kind.STRING: '"', Kind.UNNAMED: ":",
    Kind.PREFIX: "p", Kind.SIGN: "s", Kind.BAD: "!",
}  # fmt: skip


class Rows(unittest.TestCase):
    """A test whose rows are an input and what has to come of it."""

    def rows(self, rows, read):
        """Compares what `read` returns for each input."""
        for given, wanted in rows.items():
            with self.subTest(given=given):
                self.assertEqual(read(given), wanted)


def told(tokens):
    """Tokens as a text: before each its kind's sign, and two blanks between two of them."""
    return "  ".join(f"{SIGNS[it.kind]} {it.text}" for it in tokens)


def tokens_of(text, has_escapes=False):
    """The tokens of a line."""
    return line_of(text, has_escapes).tokens


def plain(tokens):
    """The texts of tokens, a blank between two of them."""
    return " ".join(it.text for it in tokens)


def statement(text, *macros):
    """The statement of a line, where these names are macros."""
    return statement_of(tokens_of(text), lambda it: it in macros)
