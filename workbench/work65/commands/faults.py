"""work65 faults: all errors in a source, in bin65's words."""
import argparse
import os

from work65.diagnosing.search import MOST, Search
from work65.frontend.files import want_regular
from work65.frontend.linked_tree import LinkedTree
from work65.output import write
from work65.problem import Problem, complain
from work65.program import Program
from work65.signals import folder_for_a_while

HELP = "report all errors of a source at once, in bin65's words"


def add_arguments(parser: argparse.ArgumentParser) -> None:
    """Adds the arguments of this subcommand."""
    parser.add_argument("source", metavar="SOURCE")
    parser.add_argument("-I", dest="include", action="append", default=[], metavar="DIR", help="as for ca65")
    parser.add_argument("-D", dest="define", action="append", default=[], metavar="NAME[=NUMBER]", help="as for ca65")
    parser.add_argument("-g", action="store_true", help="accepted, as by ca65; without effect")


def run(arguments: argparse.Namespace) -> int:
    """Reports all errors. Returns 1 if there are any."""
    program = Program.find(arguments.bin65)
    if not os.path.exists(arguments.source):
        raise Problem(f"{arguments.source}: no such file")
    want_regular(arguments.source)
    with folder_for_a_while() as folder:
        search = Search(program, LinkedTree(os.path.join(folder, "root")), arguments, folder)
        found = search.all()
    write(None, os.fsencode("".join(f"{it}\n" for it in found)))
    if search.has_more:
        complain(f"{arguments.source}: there are more than {MOST} errors; only the first {MOST} are shown")
    return 1 if found else 0
