"""The character codes of machines."""
from typing import Dict, List, Optional, Sequence

from work65.frontend import words
from work65.frontend.tokens import Kind, Token, is_closed

ESCAPES = {"\\": "\\", '"': '"', "'": "'", "n": "\n", "r": "\r", "t": "\t"}


class Charmap:
    """The code of each character."""

    def __init__(self, codes: Dict[int, int]) -> None:
        self.codes = codes

    def of(self, text: str) -> List[int]:
        """Returns the codes of a text whose signs are single bytes."""
        return [self.codes.get(ord(it), ord(it)) for it in text]

    def copied(self) -> "Charmap":
        """Returns a map of its own with the same codes."""
        return Charmap(dict(self.codes))


# The codes that differ, as characters and codes in turn.
_COMMODORE = "08 14 0A 0D 0B 11 0C 93 0D 0A 11 0B 14 08 5C BF 5F A4 60 AD 7B B3 7C DD 7D AB 7E B1 7F DF 93 0C"
_ATARI = "07 FD 09 7F 0A 9B 0C 7D"
_OSI = "7C 7D 7D 7C 7E 7F 7F 7E"


def _pairs(text: str) -> Dict[int, int]:
    numbers = [int(it, 16) for it in text.split()]
    return dict(zip(numbers[::2], numbers[1::2]))


def of_target(target: Optional[str]) -> Charmap:
    """Returns the map that -t gives."""
    if target in words.COMMODORE:
        codes = _pairs(_COMMODORE)
        codes.update({it: it + 0x80 for it in range(0x41, 0x5B)})
        codes.update({it: it - 0x20 for it in range(0x61, 0x7B)})
        codes.update({it: it - 0x60 for it in range(0xC0, 0xE0)})
        return Charmap(codes)
    if target == "osic1p":
        return Charmap(_pairs(_OSI))
    return Charmap(_pairs(_ATARI) if target in ("atari", "atarixl", "atari5200") else {})


def content(token: Token, has_escapes: bool) -> Optional[str]:
    """Returns the characters of a string; None where an escape isn't one of ca65's."""
    inner = token.text[1:-1] if is_closed(token) else token.text[1:]
    if not has_escapes or "\\" not in inner:
        return inner
    found, at = "", 0
    while at < len(inner):
        sign, at = inner[at], at + 1
        if sign != "\\":
            found += sign
            continue
        escape, at = inner[at : at + 1], at + 1
        if escape in ("x", "X"):
            digits = inner[at : at + 2]
            try:
                found += chr(int(digits, 16))
            except ValueError:
                return None
            at += 2
        elif escape in ESCAPES:
            found += ESCAPES[escape]
        else:
            return None
    return found


def as_elements(codes: Sequence[int]) -> List[str]:
    """Returns bytes as elements of a list: strings for what can be read, numbers for the rest."""
    found: List[str] = []
    run = ""
    for code in codes:
        if 32 <= code < 127 and code != 34:
            run += chr(code)
            continue
        if run:
            found.append(f'"{run}"')
            run = ""
        found.append(f"${code:02X}")
    return found + ([f'"{run}"'] if run else [])


def has_text(tokens: Sequence[Token]) -> bool:
    """Returns whether a line has a string or a character."""
    return any(it.kind in (Kind.STRING, Kind.CHARACTER) for it in tokens)
