"""The command line of work65."""
import argparse
import importlib
import io
import os
import sys
from typing import Sequence

from work65 import pages, signals
from work65.output import give_up_output
from work65.problem import Problem, complain

COMMANDS = (
    "check", "port", "second", "link", "convert", "faults", "explain", "list", "labels", "debug", "deps", "size", "pages",
    "unused", "banks", "completion",
)  # fmt: skip


class ShowVersion(argparse.Action):
    """Prints the version and exits."""

    def __call__(self, parser: argparse.ArgumentParser, *rest: object) -> None:
        print(f"work65 {pages.version()}")
        parser.exit()


def parser_of(words: Sequence[str]) -> argparse.ArgumentParser:
    """Returns the parser of a command line. If the first word is a command, only that command's module is imported."""
    parser = argparse.ArgumentParser(prog="work65", description="Companion tools for bin65: check, convert and inspect 6502 programs.")
    parser.add_argument("--version", action=ShowVersion, nargs=0, help="print the version and exit")
    parts = parser.add_subparsers(dest="command", metavar="COMMAND", required=True)
    for name in words[:1] if words[:1] and words[0] in COMMANDS else COMMANDS:
        module = importlib.import_module(f"work65.commands.{name}")
        part = parts.add_parser(name, help=module.HELP, description=module.HELP)
        part.add_argument("--bin65", metavar="PROGRAM", help="the program bin65 (default: $BIN65, then PATH)")
        module.add_arguments(part)
        part.set_defaults(run=module.run)
    return parser


def run(words: Sequence[str]) -> int:
    """Runs a command line, and returns the exit status: 2 for a usage error. A module that reads words of its own gets them first."""
    if words[:1] and words[0] in COMMANDS:
        module = importlib.import_module(f"work65.commands.{words[0]}")
        own = module.run_words(words[1:]) if hasattr(module, "run_words") else None
        if own is not None:
            sys.stdout.flush()
            return int(own)
    arguments = parser_of(words).parse_args(words)
    status = int(arguments.run(arguments))
    sys.stdout.flush()
    return status


def main(words: Sequence[str]) -> int:
    """Runs a command line, prints a one-line message if it fails, and returns the exit status."""
    signals.heed()
    failed = 2 if words[:1] == ["second"] else 1  # second says by 1 that images differ
    try:
        if sys.stdout is None:
            raise Problem("standard output is closed", failed)
        if isinstance(sys.stdout, io.TextIOWrapper):
            sys.stdout.reconfigure(errors="surrogateescape")  # names of files needn't be UTF-8
        return run(words)
    except Problem as problem:
        complain(str(problem))
        return problem.status
    except KeyboardInterrupt:
        return 130
    except BrokenPipeError:
        give_up_output()
        return failed
    except OSError as error:
        if error.filename is None:
            give_up_output()
        complain(f"{os.fsdecode(error.filename) if error.filename else 'standard output'}: {error.strerror}")
        return failed
