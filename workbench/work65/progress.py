"""How far a long run is, over a terminal alone."""
import sys
import time


class Progress:
    """Counts steps, and says on a terminal how many are done once a run takes longer than a second."""

    def __init__(self, what: str, whole: int) -> None:
        self.what, self.whole, self.done = what, whole, 0
        self.begun = self.said = time.monotonic()
        self.is_shown = sys.stderr.isatty()

    def step(self) -> None:
        """Counts a step."""
        self.done += 1
        now = time.monotonic()
        if self.is_shown and now - self.begun > 1 and now - self.said > 0.2:
            self.said = now
            print(f"\r{self.done} of {self.whole} {self.what}", end="", file=sys.stderr, flush=True)

    def end(self) -> None:
        """Clears the line."""
        if self.is_shown and self.said != self.begun:
            print("\r\x1b[K", end="", file=sys.stderr, flush=True)
