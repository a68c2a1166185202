"""Several modules as one program: the image by the definition, without objects."""

from reference.modules import LENGTHS, WIDTHS, next_multiple
from reference.sources import OPCODES, Refused, value1, value2, wrapped

RANGES = {"byte": (0, 255), "word": (0, 65535), "dbyt": (0, 65535), "dword": (0, 2**32 - 1), "branch": (-128, 127)}


class Program:
    """Modules in the order of linking, and a script."""

    def __init__(self, modules, script):
        self.modules, self.script = modules, script
        self.values, self.positions = {}, {}

    # ---- The list of a segment, and positions in it.

    def items(self, name):
        """For each module with a section of this name a rounding item, and then its statements there."""
        for owner, module in enumerate(self.modules):
            lines = [s for s in module.laid if s.segment == name]
            if any(s.asks() for s in lines):
                yield "rounding", max(s.multiple for s in lines)
                yield from ((owner, s) for s in lines)

    def measured(self, name):
        """Returns the items of a segment, each with its position and its end."""
        end = 0
        for owner, it in self.items(name):
            at, multiple = end, it if owner == "rounding" else it.multiple
            if owner == "rounding" or it.kind == "align":
                end = next_multiple(at, multiple)
            else:
                end = at + it.length
            yield owner, it, at, end

    def sizes(self):
        """The size of each segment, in the order in which modules first ask for one."""
        asked = [s.segment for module in self.modules for s in module.laid if s.asks()]
        found = {}
        for name in dict.fromkeys(asked):
            for owner, it, at, found[name] in self.measured(name):
                if owner != "rounding":
                    self.positions[it] = at
        return found

    def address(self, s):
        """The run address of the segment's row, and the position."""
        return wrapped(self.script.rows[s.segment].run + self.positions[s])

    # ---- Values.

    def value(self, owner, s, e):
        """Returns the value of an expression at a statement of a module."""
        if isinstance(e, int):
            return e
        if e[0] == "here":
            return self.address(s)
        if e[0] == "one":
            return value1(e[1], self.value(owner, s, e[2]))
        if e[0] == "two":
            return value2(e[1], self.value(owner, s, e[2]), self.value(owner, s, e[3]))
        at = self.modules[owner].meaning(s, e)
        if isinstance(at, str):
            return self.given(at)
        if at is None:
            raise Refused("undefined name")
        d = self.modules[owner].laid[at]
        return self.constant(owner, d) if d.kind == "constant" else self.address(d)

    def constant(self, owner, d):
        """The value of a constant, which can't be needed for itself."""
        if self.values.get(d, d) is None:
            raise Refused("circular definition")
        if d not in self.values:
            self.values[d] = None
            self.values[d] = self.value(owner, d, d.parts[1])
        return self.values[d]

    def given(self, name):
        """The value of an import: the script's, that of the module which exports it, or else the script's weak one."""
        if name in self.named:
            return self.named[name]
        if name in self.exporters:
            return self.exported(self.exporters[name], name)
        if name in self.script.weak:
            return self.script.weak[name]
        raise Refused("unresolved")

    def exported(self, owner, name):
        """The value of a name in the global scope of a module."""
        return self.value(owner, self.modules[owner].end, ("name", [name]))

    # ---- Bytes.

    def stored(self, width, value):
        low, high = RANGES[width]
        if not low <= value <= high:
            raise Refused("out of range")
        return (value % 256 ** LENGTHS[width]).to_bytes(LENGTHS[width], "big" if width == "dbyt" else "little")

    def operand(self, owner, s):
        width, e = WIDTHS.get(s.form, "byte"), s.parts[3]
        if width is None or e is None:
            return b""
        value = self.value(owner, s, e)
        return self.stored(width, wrapped(value - wrapped(self.address(s) + 2)) if width == "branch" else value)

    def line_bytes(self, owner, s, fill, room):
        if s.kind == "instruction":
            return bytes([OPCODES[s.parts[0], s.form]]) + self.operand(owner, s)
        if s.kind == "data":
            width, items = s.parts
            values = (it if isinstance(it, bytes) else self.stored(width, self.value(owner, s, it)) for it in items)
            return b"".join(values)
        return bytes([fill if s.fill is None else s.fill]) * room

    def segment_bytes(self, name, fill):
        return b"".join(
            bytes([fill]) * (end - at) if owner == "rounding" else self.line_bytes(owner, it, fill, end - at)
            for owner, it, at, end in self.measured(name)
        )

    # ---- The image.

    def give_names(self):
        """Who gives each name; none is given twice."""
        exports = [(name, owner) for owner, module in enumerate(self.modules) for name in module.exports]
        names = [name for name, value in self.script.names()] + [name for name, owner in exports]
        if len(set(names)) < len(names):
            raise Refused("duplicate export")
        self.exporters = dict(exports)

    def check_said(self):
        """Checks names that must be defined and expressions that must have a value, used or not."""
        given = {**self.named, **self.exporters, **self.script.weak}
        if not given.keys() >= {*self.script.imports, *(name for module in self.modules for name in module.forced)}:
            raise Refused("unresolved")
        for owner, module in enumerate(self.modules):
            for name in module.exports:
                self.exported(owner, name)
        for owner, module in enumerate(self.modules):
            for s in module.laid:
                if s.kind == "assert" and self.value(owner, s, s.parts[0]) == 0 and s.parts[1] == "error":
                    raise Refused("assertion")

    def image(self, output):
        """The files by their names."""
        self.give_names()
        self.script.place(self.sizes())
        self.named = dict(self.script.names())
        contents = {name: self.segment_bytes(name, row.fill) for name, row in self.script.rows.items()}
        self.check_said()
        files = {}
        for area in self.script.areas.values():
            loaded = [it for it in self.script.rows.items() if it[1].load_area is area and it[1].is_written]
            rows = [(row, contents[name]) for name, row in loaded]
            name = output if area.file is None else area.file
            if name:
                files[name] = files.get(name, b"") + area_file(area, rows)
        return files


def area_file(area, rows):
    """The bytes of an area: those of its rows, and its fill in the gaps."""
    length = max([0, *(row.load - area.start + row.size for row, content in rows if row.size)])
    found = bytearray([area.fill]) * (area.size if area.is_filled else length)
    for row, content in rows:
        found[row.load - area.start : row.load - area.start + row.size] = content
    return bytes(found)


def selected(modules, library, script):
    """The members of a library that the modules before it need: the first exporters of the least set of names that has
    those that are open, and with each name what its first exporter needs and isn't defined."""
    defined = {name for name, value in script.names()} | {name for module in modules for name in module.exports}
    left = [*script.imports, *(name for module in modules for name in module.needs())]
    chosen, seen = set(), set()
    while left:
        name = left.pop()
        if name in defined or name in seen:
            continue
        seen.add(name)
        member = next((i for i, it in enumerate(library) if name in it.exports), None)
        if member is not None and member not in chosen:
            chosen.add(member)
            left += library[member].needs()
    return [library[i] for i in sorted(chosen)]
