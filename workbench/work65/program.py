"""Finding and running bin65."""
import os
import shutil
import subprocess
from dataclasses import dataclass
from typing import Optional, Sequence

from work65.problem import Problem


@dataclass(frozen=True)
class Ran:
    """The result of a run of bin65."""

    status: int
    out: bytes
    err: bytes


@dataclass(frozen=True)
class Program:
    """The program bin65, by its path."""

    path: str

    @staticmethod
    def find(named: Optional[str]) -> "Program":
        """Returns the program that --bin65, the variable BIN65 or the path names."""
        wanted = named or os.environ.get("BIN65") or "bin65"
        found = shutil.which(wanted)
        if found is None:
            raise Problem(f"bin65 not found: {wanted} (use --bin65 or set BIN65)")
        return Program(os.path.abspath(found))

    def run(self, words: Sequence[str], folder: Optional[str] = None) -> Ran:
        """Runs bin65 with these words, in a folder."""
        try:
            ran = subprocess.run([self.path, *words], cwd=folder, stdin=subprocess.DEVNULL, capture_output=True)
        except OSError as error:
            raise Problem(f"{self.path} can't be run: {error.strerror}") from error
        return Ran(ran.returncode, ran.stdout, ran.stderr)
