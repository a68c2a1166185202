"""Checks the link that cc65's linker has just made: run by the script that stands for ld65."""
import json
import os
import sys

from work65 import signals
from work65.linking.checking import Tools, checked
from work65.program import Program


def main() -> None:
    """Checks one link, and adds a line to the results: null for a call that links nothing."""
    room, linker, bin65, kept, top = sys.argv[2:7]
    signals.heed()
    found = checked(sys.argv[7:], Tools(linker, Program(bin65), kept), True)
    folder = os.path.relpath(os.getcwd(), top)
    if found and folder != os.curdir:
        # The text begins with the name of a file.
        found = found._replace(text=os.path.join(folder, found.text))
    # One write of a whole line: links of a parallel build add theirs at the same time.
    mode = os.O_WRONLY | os.O_APPEND | os.O_CREAT
    results = os.open(os.path.join(room, "links"), mode, 0o600)
    os.write(results, f"{json.dumps(found)}\n".encode("ascii"))
    os.close(results)
