#!/usr/bin/env python3
"""The modules of work65: mypy has nothing to say of their types where it is installed, none has more than 400 lines, and each
is Python 3.9 and imports the standard library and work65 alone.

usage: workbench_types.py. The last line is 'N passed, M failed'."""
import ast
import glob
import os
import shutil
import subprocess
import sys
import tempfile
from typing import Iterator

import pages
import results

# Which modules Python itself has: known from 3.10 on.
STANDARD = set(getattr(sys, "stdlib_module_names", ()))
PACKAGE = f"{pages.ROOT}/workbench"


def imported(tree: ast.AST) -> Iterator[str]:
    """The first parts of the names of all modules that are imported."""
    for it in ast.walk(tree):
        if isinstance(it, ast.Import):
            yield from (name.name.split(".")[0] for name in it.names)
        elif isinstance(it, ast.ImportFrom):
            yield (it.module or "").split(".")[0] if it.level == 0 else "work65"


def main() -> None:
    checks = {}
    files = sorted(glob.glob(f"{PACKAGE}/work65/**/*.py", recursive=True))
    for file in files:
        text, name = pages.read(os.path.relpath(file, pages.ROOT)), os.path.relpath(file, PACKAGE)
        checks[f"{name} has at most 400 lines"] = len(text.splitlines()) <= 400
        others = set(imported(ast.parse(text, feature_version=(3, 9)))) - {"work65"} - STANDARD
        checks[f"{name} imports the standard library alone: {sorted(others)}"] = not others or not STANDARD
    checks["there are modules"] = len(files) > 10
    if shutil.which("mypy"):
        with tempfile.TemporaryDirectory() as cache:
            words = ["mypy", "--cache-dir", cache, "--disallow-untyped-defs", "--disallow-incomplete-defs", "work65"]
            ran = subprocess.run(words, cwd=PACKAGE, capture_output=True, text=True)
        checks[f"mypy: {ran.stdout}{ran.stderr}"] = ran.returncode == 0
    else:
        print("mypy isn't here: types aren't checked")
    sys.exit(results.report(checks))


main()
