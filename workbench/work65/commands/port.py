"""work65 port: converts a tree for bin65, and reports what can't be converted."""
import argparse
import os
from typing import List, Optional, Tuple

from work65.commands.check import said
from work65.frontend import words
from work65.frontend.files import walked
from work65.frontend.tokens import value_of
from work65.porting import copying, port, verdict
from work65.porting.project import Spread
from work65.porting.statements import FEATURES
from work65.porting.tools import Options, in_decimal, missing
from work65.problem import Problem
from work65.program import Program
from work65.signals import folder_for_a_while

HELP = "convert a copy of sources and scripts for bin65, and report what can't be converted"


def add_arguments(parser: argparse.ArgumentParser) -> None:
    """Adds the arguments of this subcommand."""
    parser.add_argument("paths", nargs="+", metavar="PATH", help="a source, an include file, a script, or a folder of them")
    parser.add_argument("-o", dest="folder", required=True, metavar="FOLDER", help="the folder for the copy")
    add_options(parser)
    parser.add_argument("--force", action="store_true", help="overwrite files of an earlier copy that were edited since")
    parser.add_argument("--no-verify", action="store_true", help="don't compare cc65's build with bin65's")
    parser.add_argument("--verify", action="store_true", help="compare; exit with status 1 if cc65's tools are missing")


def add_options(parser: argparse.ArgumentParser) -> None:
    """Adds the options that a Makefile passes to ca65."""
    add = parser.add_argument
    add("-I", dest="include", action="append", default=[], metavar="DIR", help="search for included files in DIR")
    add("--bin-include-dir", dest="data", action="append", default=[], metavar="DIR", help="search for files of .incbin in DIR")
    add("-D", dest="define", action="append", default=[], metavar="NAME[=NUMBER]", help="define a constant, as for ca65")
    add("--cpu", dest="processor", choices=("6502", "6502X"), default="6502", help="the processor, as for ca65 (default: 6502)")
    add("--feature", dest="features", choices=sorted(FEATURES), action="append", default=[], metavar="NAME", help="enable a feature, as for ca65")
    add("-g", action="store_true", help="accepted, as by ca65; without effect")
    add("--symbol", dest="symbols", action="append", default=[], metavar="NAME=NUMBER", help="define a symbol, as -D for ld65")
    add("-t", "--target", dest="target", choices=sorted(words.TARGETS), metavar="T", help="the target, as for ca65")


def options_of(arguments: argparse.Namespace) -> Options:
    """Returns the options for ca65 of a command line."""
    symbols = dict(_symbol(it) for it in arguments.symbols)
    its = arguments
    return Options(its.target, its.include, its.data, its.define, its.processor, its.features, symbols)


def _symbol(text: str) -> "Tuple[str, int]":
    """Reads a symbol and its number. Raises a Problem if they are invalid."""
    name, _, number = text.partition("=")
    value = value_of(in_decimal(number))
    if not name.isidentifier() or value is None:
        raise Problem(f"--symbol {text}: expected NAME=NUMBER, such as NAME=$20")
    return name, value


def run(arguments: argparse.Namespace) -> int:
    """Converts a tree. Returns 1 if something couldn't be converted, or if images differ."""
    if os.path.lexists(arguments.folder) and not os.path.isdir(arguments.folder):
        raise Problem(f"{arguments.folder}: not a folder")
    options, paths = options_of(arguments), sources_of(arguments)
    program, reason = tools_of(arguments)
    if reason and arguments.verify:
        raise Problem(f"--verify can't compare: {reason}")

    def made(spread: Spread) -> port.Ported:
        return port.ported(port.read_project(paths, options), spread)

    with folder_for_a_while() as room:
        if program is None:
            copy = made(Spread())
            last = f"not compared: {reason}; operands may have other sizes than with cc65"
            judged = verdict.Verdict(copy, copying.files_of(copy, options.data), [], last)
        else:
            judged = verdict.compared(program, options, room, made, arguments.folder)
        originals = [it.path for it in judged.ported.project.texts.values()]
        copying.write(judged.files, arguments.folder, originals, arguments.force)
    lines: List[str] = [said(it) for it in judged.ported.findings]
    own = [f"{os.path.join(arguments.folder, it)}: a source of its own: link it last" for it in judged.ported.project.own_sources]
    for it in [*lines, *judged.lines, *own, judged.last]:
        print(it)
    return 1 if lines or judged.lines else 0


def tools_of(arguments: argparse.Namespace) -> "Tuple[Optional[Program], str]":
    """Returns the program to compare with, or the reason why nothing is compared."""
    lacking = missing()
    if arguments.no_verify or lacking is not None:
        return None, "--no-verify" if arguments.no_verify else f"cc65's {lacking} isn't on the path"
    try:
        return Program.find(arguments.bin65), ""
    except Problem as problem:
        return None, str(problem)


def sources_of(arguments: argparse.Namespace) -> List[str]:
    """Returns the files to convert, without those of an earlier copy."""
    inside = os.path.realpath(arguments.folder)
    folders = [it for it in arguments.paths if os.path.isdir(it)]
    same = next((it for it in folders if os.path.realpath(it) == inside), None)
    if same is not None:
        raise Problem(f"{arguments.folder}: the copy would overwrite the original")
    plain = [it for it in arguments.paths if it not in folders]
    found = [*walked(plain), *(it for it in walked(folders) if not os.path.realpath(it).startswith(inside + os.sep))]
    found = [it for it in found if it in plain or not copying.is_in_copy(it, folders)]
    if not found:
        raise Problem(f"no sources and no scripts in {', '.join(arguments.paths)}")
    return found
