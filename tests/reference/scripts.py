"""Linker scripts, and where they place segments."""

import re

from reference.sources import Refused

TOKEN = re.compile(
    r"[ \t\r\n]+|#.*|(?P<name>[A-Za-z_]\w*)|(?P<number>\d+|\$[0-9A-Fa-f]+)|\"(?P<string>[^\"\n%]*)\"|(?P<output>%O)"
    r"|(?P<sign>[{}:;,=+-])"
)
NUMBERS = {"start", "size", "fillval", "align", "align_load", "offset", "value"}
# The names that an area and a row define.
AREA_PARTS, ROW_PARTS = ("START", "SIZE", "LAST"), ("LOAD", "RUN", "SIZE")


def tokens(text):
    found, at = [], 0
    while at < len(text):
        token = TOKEN.match(text, at)
        if not token:
            raise Refused("script")
        at = token.end()
        if token.lastgroup:
            found.append((token.lastgroup, token[token.lastgroup]))
    return found[::-1]


def number(word):
    found = int(word[1:], 16) if word[0] == "$" else int(word)
    if found > 0xFFFFFFFF:
        raise Refused("value out of range")
    return found


def value(attribute, kind, word):
    if attribute in NUMBERS:
        return number(word)
    return None if kind == "output" else word if kind == "string" or attribute in ("load", "run") else word.lower()


def terms(left):
    """The terms of a sum: each with its sign, and a number or a name."""
    found, sign = [], 1
    while True:
        kind, word = left.pop()
        if kind not in ("number", "name"):
            raise Refused("syntax error")
        found.append((sign, number(word) if kind == "number" else word))
        if left[-1][1] not in ("+", "-"):
            break
        sign = 1 if left.pop()[1] == "+" else -1
    if all(isinstance(it, int) for _, it in found):
        in_range(sum(sign * it for sign, it in found), "value out of range")
    return found


def in_range(found, why):
    if not 0 <= found <= 0xFFFFFFFF:
        raise Refused(why)
    return found


def entries(left, is_memory):
    """The entries between braces: names and their attributes."""
    found = {}
    left.pop()
    while left[-1][1] != "}":
        name, attributes = left.pop()[1], {}
        left.pop()
        while left[-1][1] != ";":
            attribute = left.pop()[1].lower()
            if left[-1][1] == "=":
                left.pop()
            if is_memory and attribute in ("start", "size"):
                attributes[attribute] = terms(left)
            else:
                attributes[attribute] = value(attribute, *left.pop())
            if left[-1][1] == ",":
                left.pop()
        left.pop()
        if is_memory and all(isinstance(it, int) for word in ("start", "size") for _, it in attributes[word]):
            if sum(sign * it for word in ("start", "size") for sign, it in attributes[word]) > 2**32:
                raise Refused("value out of range")
        found[name] = attributes
    left.pop()
    return found


class Area:
    def __init__(self, start, size, type="rw", file=None, fill="no", fillval=0, define="no"):
        # The sums, and their values once they are known.
        self.sums, self.start, self.size = (start, size), None, None
        self.read_only, self.is_filled, self.defines = type == "ro", fill == "yes", define == "yes"
        self.file, self.fill = file, fillval
        self.last = None


class Row:
    def __init__(self, areas, load, run=None, type="rw", align=1, align_load=1, start=None, offset=None, fillval=None,
                 define="no", optional="no"):
        self.load_area, self.run_area = areas[load], areas[run or load]
        self.type, self.is_written, self.defines = type, type in ("ro", "rw"), define == "yes"
        self.align, self.align_load, self.start, self.offset = align, align_load, start, offset
        self.fill = self.load_area.fill if fillval is None else fillval
        self.load = self.run = None
        self.size = 0

    def begin_in(self, area, cursor):
        """Where the row begins in an area."""
        if area is not self.run_area:
            return -(-cursor // self.align_load) * self.align_load
        if self.start is not None:
            return self.start
        return area.start + self.offset if self.offset is not None else -(-cursor // self.align) * self.align


class Script:
    """Areas and rows by their names, in their order; names that it exports, wants, or gives where nothing else does."""

    def __init__(self, text):
        blocks, left = {"MEMORY": {}, "SEGMENTS": {}, "SYMBOLS": {}}, tokens(text)
        while left:
            word = left.pop()[1].upper()
            blocks[word].update(entries(left, word == "MEMORY"))
        symbols = blocks["SYMBOLS"].items()
        self.check_names(blocks)
        self.areas = {name: Area(**it) for name, it in blocks["MEMORY"].items()}
        self.rows = {name: Row(self.areas, **it) for name, it in blocks["SEGMENTS"].items()}
        self.exports = {name: it["value"] for name, it in symbols if it["type"] == "export"}
        self.weak = {name: it["value"] for name, it in symbols if it["type"] == "weak"}
        self.imports = [name for name, it in symbols if it["type"] == "import"]

    def check_names(self, blocks):
        """Refuses the first name in a sum that isn't one of an export, an area's part and a row's part."""
        exports = [name for name, it in blocks["SYMBOLS"].items() if it["type"] == "export"]
        areas = [f"__{name}_{part}__" for name in blocks["MEMORY"] for part in AREA_PARTS]
        rows = [f"__{name}_{part}__" for name in blocks["SEGMENTS"] for part in ROW_PARTS]
        for it in blocks["MEMORY"].values():
            for attribute in it:
                for _, term in it[attribute] if attribute in ("start", "size") else ():
                    found = isinstance(term, int) or sum(term in names for names in (exports, areas, rows))
                    if found != 1 and not isinstance(term, int):
                        raise Refused(f"{'ambiguous name' if found else 'no such name'}: {term}")

    def known(self):
        """Returns the known values of names in sums."""
        found = dict(self.exports)
        for name, it in self.areas.items():
            found.update(zip((f"__{name}_{part}__" for part in AREA_PARTS), (it.start, it.size, it.last)))
        for name, it in self.rows.items():
            found.update(zip((f"__{name}_{part}__" for part in ROW_PARTS), (it.load, it.run, it.size)))
        return found

    def total(self, area_name, sum_of):
        """Returns the value of a sum of an area."""
        found, known = 0, self.known()
        for sign, term in sum_of:
            if not isinstance(term, int) and known[term] is None:
                raise Refused(f"name not yet placed: {term}")
            found += sign * (term if isinstance(term, int) else known[term])
        return in_range(found, f"area value out of range: {area_name}")

    def names(self):
        """The names that it gives, with their values once the rows are placed."""
        for name, it in self.areas.items():
            if it.defines:
                yield from [(f"__{name}_START__", it.start), (f"__{name}_SIZE__", it.size)]
                yield f"__{name}_LAST__", it.last
        for name, it in self.rows.items():
            if it.defines:
                yield from [(f"__{name}_LOAD__", it.load), (f"__{name}_RUN__", it.run), (f"__{name}_SIZE__", it.size)]
        yield from self.exports.items()

    def place(self, sizes):
        """Gives each row its addresses, where segments have these sizes."""
        for name in sizes:
            if name not in self.rows:
                raise Refused(f"segment has no row: {name}")
        for name, row in self.rows.items():
            row.size = sizes.get(name, 0)
        for area_name, area in self.areas.items():
            area.start = self.total(area_name, area.sums[0])
            area.size = self.total(area_name, area.sums[1])
            area.end = area.start + area.size
            if area.end > 2**32:
                raise Refused(f"area value out of range: {area_name}")
            cursor = area.start
            for name, row in self.rows.items():
                if area not in (row.load_area, row.run_area):
                    continue
                if area.read_only and area is row.run_area and row.type != "ro":
                    raise Refused(f"read-only area: {name}")
                begin = row.begin_in(area, cursor) if name in sizes else cursor
                if begin < cursor:
                    raise Refused(f"start below what is placed: {name}")
                if begin + row.size > area.end:
                    raise Refused(f"overflow of {area_name} by {begin + row.size - area.end} bytes")
                row.run = begin if area is row.run_area else row.run
                row.load = begin if area is row.load_area else row.load
                cursor = begin + row.size
            area.last = cursor
