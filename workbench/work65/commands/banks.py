"""work65 banks: calls, jumps and tables that name a label of another bank of the same window."""
import argparse

from work65.inspecting.banks import OtherBank, has_banks, other_banks
from work65.inspecting.command import add_arguments, inspected, write_json, write_lines
from work65.problem import Problem

HELP = "list calls, jumps and table entries that name a label of another bank of the same window"
__all__ = ["HELP", "add_arguments", "run"]


def text(found: OtherBank) -> str:
    """Returns the line of a finding."""
    line, label = found.line, found.label
    banks = f"in bank {found.own.bank}, {label.name} in bank {found.other.bank}"
    return f"{line.place}: {line.statement}: {banks} ({label.address:04X}, {label.module})"


def run(arguments: argparse.Namespace) -> int:
    """Runs the subcommand. Returns the exit status: 1 if something is found."""
    program = inspected(arguments)
    if not has_banks(program):
        said = "no two areas at the same addresses have banks: write `# bank N` after them"
        if arguments.script is None:
            raise Problem("give -C CONFIG, whose areas say their banks", 2)
        raise Problem(f"{arguments.script}: {said}", 2)
    found = list(other_banks(program))
    if arguments.json:
        write_json([it.as_values() for it in found])
    else:
        write_lines(map(text, found))
    return int(bool(found))
