"""The form of bin65's messages."""
import os
import re
from dataclasses import dataclass
from typing import Optional

_FORM = re.compile(r"(?:(?P<place>.+?): )(?P<kind>Error|Warning): (?P<text>.*)", re.S)


@dataclass(frozen=True)
class Message:
    """A message: its file, its line if it has one, whether it is an error, and its text."""

    whole: str
    file: str
    line: Optional[int]
    is_error: bool
    text: str

    @property
    def name(self) -> str:
        """The name after the colon in the text, empty if there is none."""
        return self.text.partition(": ")[2]


def message_of(whole: str) -> Optional[Message]:
    """Reads a line of standard error. Returns None if it is no message."""
    match = _FORM.fullmatch(whole.rstrip("\r\n"))
    if match is None:
        return None
    place, line = match["place"], None
    head, colon, last = place.rpartition(":")
    if colon and last.isdigit():
        place, line = head, int(last)
        if not os.path.exists(place) and ":" in place and os.path.exists(place.split(":", 1)[1]):
            place = place.split(":", 1)[1]
    return Message(whole.rstrip("\r\n"), place, line, match["kind"] == "Error", match["text"])
