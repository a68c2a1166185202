"""Runs work65, as `python3 -m work65` or as the installed command. Until all modules are loaded, Ctrl-C ends it without a word."""
import sys

from work65 import signals

signals.heed_no_more()

from work65.main import main  # noqa: E402


def start() -> None:
    """Runs the command line, and exits with its status."""
    status = main(sys.argv[1:])
    signals.heed_no_more()
    sys.exit(status)


if __name__ == "__main__":
    start()
