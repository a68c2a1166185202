"""Signal handling: Ctrl-C, SIGTERM and SIGHUP end a run without leaving files behind."""
import os
import shutil
import signal
import tempfile
from contextlib import contextmanager
from typing import Iterator

from work65.problem import Problem

ENDING = (signal.SIGINT, signal.SIGTERM, signal.SIGHUP)


def _interrupt(number: int, _: object) -> None:
    """Raises KeyboardInterrupt for any signal."""
    raise KeyboardInterrupt


def heed() -> None:
    """Makes each signal raise KeyboardInterrupt, unless the parent process ignores it."""
    for it in ENDING:
        if signal.getsignal(it) is not signal.SIG_IGN:
            signal.signal(it, _interrupt)


def heed_no_more() -> None:
    """Restores the default action, which ends the process silently: for the time before and after main()."""
    for it in ENDING:
        if signal.getsignal(it) is not signal.SIG_IGN:
            signal.signal(it, signal.SIG_DFL)
    signal.pthread_sigmask(signal.SIG_UNBLOCK, ENDING)


@contextmanager
def _held() -> Iterator[None]:
    """Blocks the signals inside the `with` statement."""
    before = signal.pthread_sigmask(signal.SIG_BLOCK, ENDING)
    try:
        yield
    finally:
        signal.pthread_sigmask(signal.SIG_SETMASK, before)


def _new_folder() -> str:
    """Makes a temporary folder."""
    try:
        return tempfile.mkdtemp(prefix="work65-")
    except OSError as error:
        raise Problem(f"no folder for temporary files can be made: {error.strerror}") from error


@contextmanager
def folder_for_a_while() -> Iterator[str]:
    """Makes a temporary folder and removes it at the end, also if a signal ends the run."""
    name = ""
    try:
        with _held():
            name = _new_folder()
        yield os.path.realpath(name)
    finally:
        if name:
            with _held():
                shutil.rmtree(name, ignore_errors=True)
