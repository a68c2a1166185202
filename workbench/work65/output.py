"""Writes a command's output to standard output, or to a file, completely or not at all."""
import os
import sys
from typing import Optional

from work65.problem import Problem


def words(name: str) -> str:
    """Returns a file's name as a text of bytes, as the texts of sources are."""
    return os.fsencode(name).decode("latin-1")


def give_up_output() -> None:
    """Discards unwritten standard output, so that nothing is flushed at exit."""
    os.dup2(os.open(os.devnull, os.O_WRONLY), sys.stdout.fileno())


def write_out(data: bytes) -> None:
    """Writes to standard output."""
    try:
        sys.stdout.buffer.write(data)
        sys.stdout.buffer.flush()
    except OSError as error:
        give_up_output()
        if isinstance(error, BrokenPipeError):
            raise
        raise Problem(f"standard output: {error.strerror}") from error


def write(name: Optional[str], data: bytes) -> None:
    """Writes to a file, or to standard output where none is named."""
    if name is None:
        write_out(data)
        return
    was_there = os.path.lexists(name)
    try:
        with open(name, "wb") as it:
            it.write(data)
    except OSError as error:
        if not was_there and os.path.lexists(name):
            os.remove(name)
        raise Problem(f"{name}: {error.strerror}") from error
