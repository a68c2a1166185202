"""Ports small trees with `work65 port` and links them with cc65's tools and with bin65, for tests that compare the images.
"""
import contextlib
import io
import os
import subprocess
import sys

import pages

sys.path.insert(0, f"{pages.ROOT}/workbench")
from work65.main import main as work65  # noqa: E402

SCRIPT = """MEMORY {
    Z: file = "", start = $0002, size = $FE;
    M: file = %O, start = $C000, size = $3000;
    R: file = "", start = $0200, size = $1000;
}
SEGMENTS {
    ZEROPAGE: load = Z, type = zp, optional = yes;
    CODE: load = M, type = rw;
    RODATA: load = M, type = rw, optional = yes;
    DATA: load = M, type = rw, optional = yes;
    BSS: load = R, type = bss, optional = yes;
}
SYMBOLS {
    pointer: type = export, value = $10;
    extra: type = export, value = $12;
    table: type = export, value = $1234;
    print: type = export, value = $1240;
    music: type = export, value = $1250;
    chrout: type = export, value = $FFD2;
    limit: type = export, value = 9;
}
"""
# ca65 expands some sources without an end.
SECONDS = 20


def put_tree(folder, files):
    """Writes the files of a tree, with a script if it has none."""
    os.makedirs(folder, exist_ok=True)
    for name, text in {"l.cfg": SCRIPT, **files}.items():
        os.makedirs(os.path.dirname(f"{folder}/{name}"), exist_ok=True)
        pages.put(f"{folder}/{name}", text)


def port(folder, target="none", *more):
    """Ports the folder's `in` to its `out`. Returns the status and the output."""
    said, here = io.TextIOWrapper(io.BytesIO(), encoding="utf-8", write_through=True), os.getcwd()
    os.chdir(folder)
    try:
        with contextlib.redirect_stdout(said), contextlib.redirect_stderr(said):
            status = work65(["port", "in", "-o", "out", "--target", target, *more])
    finally:
        os.chdir(here)
    return status, said.buffer.getvalue().decode("utf-8", "replace")


def image(assembler, linker, folder, room):
    """Returns the image of a folder's sources in the order of their names, those in its folder work65 last; or the output of the failed
    command."""
    own = f"{folder}/work65"
    sources = sorted(it for it in os.listdir(folder) if it.endswith(".s"))
    sources += [f"work65/{it}" for it in sorted(os.listdir(own)) if it.endswith(".s")] if os.path.isdir(own) else []
    os.makedirs(room, exist_ok=True)
    objects = [f"{room}/{number}.o" for number in range(len(sources))]
    lines = [[*assembler, "-o", made, it] for made, it in zip(objects, sources)]
    for words in (*lines, [*linker, "-C", "l.cfg", "-o", f"{room}/image", *objects]):
        try:
            ran = subprocess.run(words, cwd=folder, capture_output=True, text=True, check=False, timeout=SECONDS)
        except subprocess.TimeoutExpired:
            return f"{words[0]} comes to no end"
        if ran.returncode:
            return ran.stderr
    with open(f"{room}/image", "rb") as it:
        return it.read()
