"""work65 link: links objects and libraries of cc65 with bin65, by ld65's arguments."""
import argparse
from typing import Optional, Sequence

from work65.problem import Problem

HELP = "link cc65's objects and libraries with bin65, by ld65's arguments"


def run_words(words: Sequence[str]) -> Optional[int]:
    """Links by a command line of ld65; None if help is asked for."""
    if list(words) in (["-h"], ["--help"]):
        return None
    from work65.linking.linking import link

    return link(words)


def add_arguments(parser: argparse.ArgumentParser) -> None:
    """Adds the arguments of this subcommand."""
    parser.add_argument("words", nargs="*", metavar="INPUT", help="an object or a library, and every option of ld65")


def run(arguments: argparse.Namespace) -> int:
    """Is only reached by a command line that isn't one of ld65's."""
    raise Problem("give the arguments of ld65 after `link`", 2)
