"""Errors and messages of subcommands."""
import sys


class Problem(Exception):
    """An error: the message, and the exit status."""

    def __init__(self, text: str, status: int = 1) -> None:
        super().__init__(text)
        self.status = status


def complain(text: str) -> None:
    """Prints a message on standard error."""
    shown = text.encode("utf-8", "surrogateescape").decode("utf-8", "backslashreplace")
    print(f"work65: {shown}", file=sys.stderr)
