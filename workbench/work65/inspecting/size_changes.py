"""Bytes won and lost since an earlier output of `size --json`."""
import json
from typing import Any, Dict, Iterator, List, NamedTuple

from work65.frontend.files import read_bytes
from work65.problem import Problem

Values = Dict[str, Any]
KINDS = {"areas": "used", "segments": "size", "modules": "size", "procedures": "size"}


class Change(NamedTuple):
    """A name, or a module and a procedure, with its bytes before and now."""

    name: str
    before: int
    now: int

    @property
    def change(self) -> int:
        """The bytes won, negative if there are fewer."""
        return self.now - self.before


def read_sizes(name: str) -> Values:
    """Reads an output of `size --json`. Raises a Problem if the file is none."""
    try:
        found = json.loads(read_bytes(name))
        is_right = all(is_size(it, key) for kind, key in KINDS.items() for it in found[kind])
    except (ValueError, LookupError, TypeError, AttributeError, RecursionError):
        is_right = False
    if not is_right:
        raise Problem(f"{name}: not an output of work65 size --json")
    return {kind: found[kind] for kind in KINDS}


def is_size(entry: Values, key: str) -> bool:
    """Returns whether an entry has a name, its bytes, and those by segment if it has these."""
    by_segment = entry.get("segments", {}) if key == "size" else {}
    texts = [entry["name"], entry.get("module", ""), entry.get("source", "")]
    numbers = [entry[key], *by_segment.values()]
    return all(isinstance(it, str) for it in texts) and all(isinstance(it, int) for it in numbers)


def full_name(entry: Values) -> str:
    """Returns the name of an entry, for a procedure after that of its module."""
    return f"{entry['module']} {entry['name']}" if "module" in entry else str(entry["name"])


def changes(kind: str, before: Values, now: Values) -> List[Change]:
    """Returns what changed of a kind: areas, segments, modules or procedures."""
    found: Dict[str, List[int]] = {}
    for number, values in enumerate((before, now)):
        for it in values[kind]:
            found.setdefault(full_name(it), [0, 0])[number] += it[KINDS[kind]]
    return [Change(name, *sizes) for name, sizes in found.items() if sizes[0] != sizes[1]]


def outermost(values: Values) -> Iterator[Values]:
    """Yields the procedures that aren't within another one."""
    names = {full_name(it) for it in values["procedures"]}
    for it in values["procedures"]:
        parts = full_name(it).split("::")
        if not any("::".join(parts[:number]) in names for number in range(1, len(parts))):
            yield it


def parts_of_area(area: str, before: Values, now: Values) -> Dict[str, int]:
    """Returns the changes in an area: of each procedure, by its source and name, and of the rest of
    each source. A module whose source isn't known stands for it. Procedures are left out if their
    bytes by segment aren't known, as those of a map."""
    both = [*before["segments"], *now["segments"]]
    segments = {it["name"] for it in both if area in (it.get("area"), it.get("load_area"))}
    modules = [*before["modules"], *now["modules"]]
    sources = {it["name"]: it.get("source") or it["name"] for it in modules}
    procedures = [list(outermost(it)) for it in (before, now)]
    is_known = all(procedures) and all("segments" in it for found in procedures for it in found)
    found: Dict[str, int] = {}
    for sign, values, within in zip((-1, 1), (before, now), procedures):
        for it in [*values["modules"], *(within if is_known else [])]:
            sizes = it.get("segments", {}).items()
            size = sign * sum(size for name, size in sizes if name in segments)
            source = sources.get(it.get("module", it["name"]), "")
            if "module" in it:
                found[source] = found.get(source, 0) - size
                source += f" {it['name']}"
            found[source] = found.get(source, 0) + size
    return {name: size for name, size in found.items() if size}


def line_of_changes(before: Values, now: Values) -> str:
    """Returns one line that says what changed in all areas, the largest change first."""
    said = []
    for area in sorted(changes("areas", before, now), key=lambda it: -abs(it.change)):
        parts = parts_of_area(area.name, before, now)
        gaps = area.change - sum(parts.values())
        parts.update({"gaps": gaps} if gaps else {})
        names = sorted(parts, key=lambda it: -abs(parts[it]))
        noun = "byte" if abs(area.change) == 1 else "bytes"
        listed = ", ".join(f"{name} {parts[name]:+}" for name in names)
        said.append(f"{area.name} {area.change:+} {noun}" + (f": {listed}" if listed else ""))
    return "; ".join(said) or "no area has more or fewer bytes"


def as_values(before: Values, now: Values) -> Values:
    """Returns the changes as plain values."""
    found: Values = {"line": line_of_changes(before, now)}
    for kind in KINDS:
        found[kind] = [{**it._asdict(), "change": it.change} for it in changes(kind, before, now)]
    return found
