"""Entries of the table, and findings."""
from dataclasses import dataclass
from typing import Tuple


@dataclass(frozen=True)
class Habit:
    """A habit of cc65's users that bin65 rejects.

    `shown` is how the page's list has it, `heading` the page's heading, `words` the directives and functions that tell it,
    `search` the patterns of the page's search for what no word tells, and `exact` those for which capitals count."""

    name: str
    shown: str
    heading: str
    cure: str
    words: Tuple[str, ...] = ()
    search: Tuple[str, ...] = ()
    exact: Tuple[str, ...] = ()


@dataclass(frozen=True)
class Finding:
    """A location that bin65 rejects: its word and its habit. `note` replaces the habit's cure, and `under` its heading."""

    path: str
    line: int
    word: str
    habit: Habit
    note: str = ""
    under: str = ""

    @property
    def cure(self) -> str:
        """The replacement to write."""
        return self.note or self.habit.cure

    @property
    def heading(self) -> str:
        """The heading of the page with more."""
        return self.under or self.habit.heading
