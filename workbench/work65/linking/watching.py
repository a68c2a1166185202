"""Runs a build with cc65's linker watched: a folder in front of PATH has a script for it, and so
has one for CC65_HOME if that is set."""
import json
import os
import shlex
import shutil
import signal
import subprocess
import sys
from typing import Dict, List, Sequence

import work65
from work65.linking.builds import NOT_COMPARED, Wanted, linker, report
from work65.linking.call import WATCHED
from work65.linking.comparing import UNKNOWN, Verdict
from work65.problem import Problem, complain
from work65.program import Program
from work65.signals import folder_for_a_while

# The real linker runs first, as it would without us. Each link leaves a line in `seen`, and one in
# `links` when it's checked.
SHIM = """#!/bin/sh
{linker} "$@" || exit
echo >> {room}/seen
{python} -S -E -c 'import sys; sys.path.insert(0, sys.argv[1])
from work65.linking.shim import main
main()' {package} {room} {linker} {bin65} {kept} {top} "$@" \\
    < /dev/null > /dev/null 2>> {room}/errors
exit 0
"""
LOST = "a link's check has ended without a result"
NONE_SEEN = "no link was seen: the build made none, or called ld65 or cl65 by an absolute path"


def watched(command: Sequence[str], wanted: Wanted) -> int:
    """Runs a command, prints a line for each link, and returns the status: that of the command if
    it fails."""
    program, tool = Program.find(wanted.bin65), linker()
    with folder_for_a_while() as room:
        package = os.path.dirname(os.path.dirname(os.path.abspath(work65.__file__)))
        values = {
            "linker": tool, "room": room, "python": sys.executable, "package": package,
            "bin65": program.path, "kept": wanted.kept, "top": os.getcwd(),
        }  # fmt: skip
        status = _ran(command, _environment(values), wanted.is_json)
        links = _links(room)
        own = report(links, wanted) if links or wanted.is_json else NOT_COMPARED
        if not links and not status:
            complain(NONE_SEEN)
    return status or own


def _ran(command: Sequence[str], environment: Dict[str, str], is_json: bool) -> int:
    """Runs the build, and returns its status. If a signal ends this program, so it does the build,
    which is waited for. Beside JSON, what the build prints goes to standard error."""
    try:
        build = subprocess.Popen(command, env=environment, stdout=sys.stderr if is_json else None)
    except OSError as error:
        raise Problem(f"{command[0]} can't be run: {error.strerror}") from error
    try:
        build.wait()
    except KeyboardInterrupt:
        build.send_signal(signal.SIGTERM)
        build.wait()
        raise
    return build.returncode if build.returncode >= 0 else 128 - build.returncode


def _environment(values: Dict[str, str]) -> Dict[str, str]:
    """Returns the environment of a build, in which ld65 is watched. Beside the script for ld65 are
    cc65's tools that PATH has there."""
    folder = os.path.dirname(values["linker"])
    tools = [it for it in os.listdir(folder) if it.endswith("65")]
    tools = [it for it in tools if shutil.which(it) in (None, os.path.join(folder, it))]
    shims = _shadow(folder, tools, os.path.join(values["room"], "path"), values)
    path = os.environ.get("PATH", os.defpath)
    found = {**os.environ, "PATH": f"{shims}{os.pathsep}{path}", WATCHED: values["linker"]}
    home = os.path.abspath(os.environ.get("CC65_HOME", ""))
    folder = os.path.join(home, "bin")
    own = os.path.join(folder, "ld65")
    if os.environ.get("CC65_HOME") and os.path.isfile(own):
        shadow = os.path.join(values["room"], "home")
        _shadow(folder, os.listdir(folder), shadow, {**values, "linker": own})
        found["CC65_HOME"] = shadow
    return found


def _shadow(folder: str, tools: Sequence[str], shadow: str, values: Dict[str, str]) -> str:
    """Makes a folder like that around the linker's, and returns the one that is like the linker's:
    with a script for ld65 and with links to tools. What is beside the folder is linked, too, as
    builds find cc65's files from there, and cl65 calls the tools of its own folder."""
    home, name = os.path.split(folder)
    shims = os.path.join(shadow, name)
    os.makedirs(shims)
    beside = os.listdir(home) if os.access(home, os.R_OK) else []
    links = [*(it for it in beside if it != name), *(os.path.join(name, it) for it in tools)]
    for link in links:
        if link != os.path.join(name, "ld65"):
            os.symlink(os.path.join(home, link), os.path.join(shadow, link))
    path = os.path.join(shims, "ld65")
    with open(path, "w", encoding="utf-8", errors="surrogateescape") as it:
        it.write(SHIM.format(**{key: shlex.quote(value) for key, value in values.items()}))
    os.chmod(path, 0o755)
    return shims


def _links(room: str) -> List[Verdict]:
    """Returns the results of all checks, in the order in which they came. A link whose check has
    left none isn't compared."""
    found = [json.loads(it) for it in _lines(room, "links")]
    lost = len(_lines(room, "seen")) - len(found)
    why = ": ".join([LOST, *_lines(room, "errors")[-1:]])
    return [Verdict(*it) for it in found if it] + [Verdict(UNKNOWN, why, {})] * max(lost, 0)


def _lines(room: str, name: str) -> List[str]:
    """Returns the lines of a file that the scripts write, none if it isn't there."""
    path = os.path.join(room, name)
    if not os.path.exists(path):
        return []
    with open(path, encoding="utf-8", errors="surrogateescape") as it:
        return it.read().splitlines()
