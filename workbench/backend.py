"""Builds the wheel of work65, for pip and pipx: a build backend that needs nothing but Python, so that no network is needed.

The wheel has the package and the pages that it reads. pip 21.3 or later builds it in place, in a clone or in an unpacked
release; earlier versions copy only this folder, without the pages, and get an error message."""
import base64
import hashlib
import os
import re
import zipfile
from typing import Dict, Iterator, Optional, Tuple

HERE = os.path.dirname(os.path.abspath(__file__))
PACKAGE = "work65"
# The pages that work65 reads: of the first one the version, of the other the paragraphs of `explain`.
CHANGES, MESSAGES = "CHANGELOG.md", "docs/MESSAGES.md"
# The members of the wheel have no time of their own, so the same files give the same bytes.
NO_TIME = (1980, 1, 1, 0, 0, 0)
WHEEL = "Wheel-Version: 1.0\nGenerator: work65\nRoot-Is-Purelib: true\nTag: py3-none-any\n"


class UnsupportedOperation(Exception):
    """What this backend doesn't do."""


def _read(name: str) -> bytes:
    with open(os.path.join(HERE, name), "rb") as it:
        return it.read()


def _page(name: str) -> bytes:
    """Reads a page of the tree around this folder."""
    try:
        return _read(os.path.join(os.pardir, name))
    except FileNotFoundError:
        raise SystemExit(f"{name} isn't beside the folder of work65: build in a clone or a release, with pip 21.3 or later") from None


def _project() -> Dict[str, str]:
    """Returns the texts of pyproject.toml, each by its table and name. Python 3.9 has no reader of TOML."""
    found, table = {}, ""
    for line in _read("pyproject.toml").decode().splitlines():
        heading, text = re.fullmatch(r"\[(.+)\]", line), re.fullmatch(r'([\w-]+) = "(.*)"', line)
        if heading:
            table = heading[1]
        elif text:
            found[f"{table}.{text[1]}"] = text[2]
    return found


def _version() -> str:
    """Returns the version: CHANGELOG's first heading."""
    heading = re.search(r"^## (\d[\d.]*)$", _page(CHANGES).decode(), re.M)
    if not heading:
        raise SystemExit(f"{CHANGES} has no version")
    return heading[1]


def _modules() -> Iterator[str]:
    """Yields the names of the package's modules."""
    for folder, folders, files in os.walk(os.path.join(HERE, PACKAGE)):
        folders[:] = sorted(set(folders) - {"__pycache__"})
        yield from (os.path.relpath(os.path.join(folder, it), HERE).replace(os.sep, "/") for it in sorted(files) if it.endswith(".py"))


def _contents(info: str, version: str) -> Dict[str, bytes]:
    """Returns the wheel's files by their names, but for the list of them. The folder `info` has what pip reads."""
    project = _project()
    scripts = [f"{it.rpartition('.')[2]} = {project[it]}\n" for it in project if it.startswith("project.scripts.")]
    about = {"Metadata-Version": "2.1", "Name": PACKAGE, "Version": version, "Summary": project["project.description"],
             "Requires-Python": project["project.requires-python"]}
    files = {it: _read(it) for it in _modules()}
    files.update({f"{PACKAGE}/{os.path.basename(it)}": _page(it) for it in (CHANGES, MESSAGES)})
    files[f"{info}/METADATA"] = "".join(f"{name}: {it}\n" for name, it in about.items()).encode()
    files[f"{info}/WHEEL"] = WHEEL.encode()
    files[f"{info}/entry_points.txt"] = f"[console_scripts]\n{''.join(scripts)}".encode()
    return files


def _row(file: Tuple[str, bytes]) -> str:
    """Returns a file's row in the list: its name, its checksum and its length."""
    name, data = file
    checksum = base64.urlsafe_b64encode(hashlib.sha256(data).digest()).rstrip(b"=").decode()
    return f"{name},sha256={checksum},{len(data)}\n"


def build_wheel(wheel_directory: str, config_settings: Optional[object] = None, metadata_directory: Optional[str] = None) -> str:
    """Builds the wheel in a folder, and returns its name. pip calls this."""
    version = _version()
    info = f"{PACKAGE}-{version}.dist-info"
    files = _contents(info, version)
    files[f"{info}/RECORD"] = ("".join(map(_row, files.items())) + f"{info}/RECORD,,\n").encode()
    name = f"{PACKAGE}-{version}-py3-none-any.whl"
    with zipfile.ZipFile(os.path.join(wheel_directory, name), "w", zipfile.ZIP_DEFLATED) as wheel:
        for member, data in files.items():
            about = zipfile.ZipInfo(member, NO_TIME)
            about.external_attr, about.compress_type = 0o100644 << 16, zipfile.ZIP_DEFLATED
            wheel.writestr(about, data)
    return name


def build_sdist(sdist_directory: str, config_settings: Optional[object] = None) -> str:
    """Refuses: the sources of work65 are released with bin65's."""
    raise UnsupportedOperation("work65 has no source distribution of its own: gate/release.py packs a release")
