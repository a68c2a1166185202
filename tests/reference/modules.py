"""The statements of a module, each with its scope, region and segment, and with its length as known at its line."""

from reference.sources import OPCODES, Refused, statements, value1, value2, wrapped

LENGTHS = {"byte": 1, "word": 2, "dbyt": 2, "dword": 4, "branch": 1}
WIDTHS = {"implied": None, "accumulator": None, "absolute": "word", "absolute_x": "word", "absolute_y": "word",
          "indirect": "word", "relative": "branch"}
# The statements that need a section of their segment.
ASKING = {"label", "cheap", "unnamed", "proc", "instruction", "data", "res", "align"}


def next_multiple(at, multiple):
    return -(-at // multiple) * multiple


def operands(e):
    """The parts of an expression, from left to right: numbers, `*` and names."""
    return [e] if isinstance(e, int) or e[0] not in ("one", "two") else [it for part in e[2:] for it in operands(part)]


class Statement:
    """A statement with its scope, region, count of unnamed labels and segment."""

    def __init__(self, stated, module):
        self.kind, *self.parts = stated
        self.scope, self.opened, self.region = module.scope, len(module.scopes), module.region
        self.unnamed, self.segment = module.unnamed, module.segment
        self.offset = module.ends.get(module.segment, 0)
        self.length, self.multiple, self.size, self.form, self.fill = 0, 1, module.sizes[module.segment], None, None

    def key(self):
        """By what the statement's definition is found, if it makes one."""
        if self.kind in ("label", "constant", "proc"):
            return self.scope, self.parts[0]
        return {"cheap": ("cheap", self.region, *self.parts), "unnamed": ("unnamed", self.unnamed)}.get(self.kind)

    def expressions(self):
        """Those whose values the image rests on, whoever uses them."""
        if self.kind == "instruction":
            return [e for e in self.parts[3:] if e is not None]
        if self.kind == "data":
            return [e for e in self.parts[1] if not isinstance(e, bytes)]
        return [self.parts[0]] if self.kind == "assert" else []

    def asks(self):
        """Returns whether the statement needs a section of its segment."""
        e = {"constant": self.parts[1:2], "assert": self.parts[:1]}.get(self.kind, [])
        return self.kind in ASKING or ("here",) in [it for tree in e for it in operands(tree)]


class Module:
    """A source's statements. While they are laid out in order, the module contains what is known at the current line."""

    def __init__(self, text):
        self.laid = []
        # the places of the statements that define a name in a scope, a cheap label in a region, an unnamed label
        self.definitions = {}
        # of each scope but the global one that in which it was opened, and its name
        self.scopes = []
        self.imports, self.zero_page, self.exported, self.forced = set(), set(), [], []
        self.scope = self.region = self.unnamed = 0
        self.segment, self.kept, self.sizes, self.ends = "CODE", [], {"CODE": "absolute"}, {}
        for stated in statements(text):
            self.lay(Statement(stated, self))
        self.scope = 0
        self.end = Statement(("end",), self)
        self.exports = [name for name in dict.fromkeys(self.exported) if (0, name) in self.definitions]
        self.check_names()

    # ---- What names mean, by the definitions so far.

    def outward(self, scope):
        """A scope and those around it."""
        while scope:
            yield scope
            scope = self.scopes[scope - 1][0]
        yield 0

    def scope_in(self, scope, name, s):
        """The scope of a name that was opened directly in a scope, before the statement."""
        return next((i for i, it in enumerate(self.scopes[: s.opened], 1) if it == (scope, name)), None)

    def scope_of(self, s, first, *names):
        if first == "":
            scope = 0
        else:
            found = (self.scope_in(scope, first, s) for scope in self.outward(s.scope))
            scope = next((it for it in found if it is not None), None)
        for name in names:
            scope = scope if scope is None else self.scope_in(scope, name, s)
        return scope

    def meaning(self, s, e):
        """Returns the meaning of a name at a statement: the index of a statement, the name of an import, or None."""
        kind, what = e
        if kind == "cheap":
            return self.definitions.get((kind, s.region, what))
        if kind == "unnamed":
            return self.definitions.get((kind, s.unnamed + what - (what > 0)))
        scopes, name = what[:-1], what[-1]
        looked = [self.scope_of(s, *scopes)] if scopes else self.outward(s.scope)
        looked = [it for it in looked if it is not None]
        place = next((self.definitions[it, name] for it in looked if (it, name) in self.definitions), None)
        if place is None and 0 in looked and name in self.imports:
            return name
        return place

    # ---- Values known at a line.

    def known(self, s, e, inside=()):
        """A number, a segment and an offset, or None where an expression isn't so much as that at its line."""
        if isinstance(e, int):
            return e
        if e[0] == "here":
            return s.segment, s.offset
        if e[0] in ("one", "two"):
            return self.known_sum(e[1], *[self.known(s, it, inside) for it in e[2:]])
        at = self.meaning(s, e)
        if not isinstance(at, int) or at in inside:
            return None
        d = self.laid[at]
        return self.known(d, d.parts[1], (*inside, at)) if d.kind == "constant" else (d.segment, d.offset)

    @staticmethod
    def known_sum(sign, *of):
        if all(isinstance(it, int) for it in of):
            try:
                return value2(sign, *of) if len(of) == 2 else value1(sign, *of)
            except Refused:
                return None
        if None in of or sign not in "+-":
            return None
        if len(of) == 1:
            return of[0] if sign == "+" else None
        a, b = of if isinstance(of[0], tuple) or sign == "-" else of[::-1]
        if isinstance(a, int) or isinstance(b, tuple) and (sign == "+" or a[0] != b[0]):
            return None
        if isinstance(b, tuple):
            return wrapped(a[1] - b[1])
        return a[0], wrapped(a[1] + (b if sign == "+" else -b))

    def constant(self, s, e, allowed):
        """The value of an expression that has to be constant, and one of these."""
        found = self.known(s, e)
        if not isinstance(found, int) or found not in allowed:
            raise Refused("operand not constant or out of range")
        return found

    def size(self, s, e):
        """Returns whether an expression is short (zero page), by the values known at its line."""
        found = self.known(s, e)
        if isinstance(found, int):
            return "zeropage" if 0 <= found <= 255 else "absolute"
        if e[0] == "here":
            return self.sizes[s.segment]
        if e[0] == "one" and e[1] in "<>^":
            return "zeropage"
        if e[0] in ("one", "two"):
            return "absolute" if "absolute" in [self.size(s, it) for it in e[2:]] else "zeropage"
        at = self.meaning(s, e)
        if isinstance(at, int):
            return self.laid[at].size
        return "zeropage" if at in self.zero_page else "absolute"

    def form_of(self, s, mnemonic, form, prefix, e):
        """The form of an instruction's operand."""
        forms = [form]
        if form == "implied":
            forms = ["implied", "accumulator"]
        elif form in ("", "_x", "_y"):
            size = {"z": "zeropage", "a": "absolute", None: self.size(s, e)}[prefix]
            sizes = [size] if prefix else [size, "absolute" if size == "zeropage" else "zeropage"]
            forms = [it + form for it in sizes]
            if (mnemonic, "relative") in OPCODES:
                forms = [] if prefix or form else ["relative"]
        found = [it for it in forms if (mnemonic, it) in OPCODES]
        if not found:
            raise Refused("no such addressing form")
        return found[0]

    def measure(self, s):
        """Settles how long a statement is, and what it is filled with."""
        if s.kind == "instruction":
            s.form = self.form_of(s, *s.parts)
            s.length = 1 + LENGTHS.get(WIDTHS.get(s.form, "byte"), 0)
        elif s.kind == "data":
            s.length = sum(len(it) if isinstance(it, bytes) else LENGTHS[s.parts[0]] for it in s.parts[1])
        elif s.kind in ("res", "align"):
            count, fill = s.parts
            powers = [2**i for i in range(16)]
            count = self.constant(s, count, range(2**24 + 1) if s.kind == "res" else powers)
            s.length = count if s.kind == "res" else next_multiple(s.offset, count) - s.offset
            s.multiple = count if s.kind == "align" else 1
            s.fill = None if fill is None else self.constant(s, fill, range(256))
        elif s.kind == "constant":
            s.size = self.size(s, s.parts[1])

    # ---- One statement more.

    def lay(self, s):
        self.measure(s)
        key = s.key()
        if key in self.definitions:
            raise Refused("defined twice")
        if key:
            self.definitions[key] = len(self.laid)
        self.laid.append(s)
        self.ends[s.segment] = s.offset + s.length
        self.region += s.kind in ("label", "proc")
        self.unnamed += s.kind == "unnamed"
        if s.kind in ("scope", "proc"):
            self.scopes.append((s.scope, *s.parts))
            self.scope = len(self.scopes)
        elif s.kind == "close":
            self.scope = self.scopes[s.scope - 1][0]
        elif s.kind == "segment":
            self.segment, size = s.parts
            self.sizes.setdefault(self.segment, size or ("zeropage" if self.segment == "ZEROPAGE" else "absolute"))
        elif s.kind == "push":
            self.kept.append(self.segment)
        elif s.kind == "pop":
            self.segment = self.kept.pop()
        else:
            self.names(s)

    def names(self, s):
        """Names that are imported or exported."""
        names = s.parts[0] if s.parts else []
        if s.kind in ("import", "importzp", "global", "globalzp", "forced"):
            self.imports.update(names)
        if s.kind in ("importzp", "globalzp"):
            self.zero_page.update(names)
        if s.kind in ("export", "global", "globalzp"):
            self.exported += names
        if s.kind == "forced":
            self.forced += names

    def check_names(self):
        for s in self.laid:
            if s.kind == "export" and any((0, name) not in self.definitions for name in s.parts[0]):
                raise Refused("export not defined")
            if s.kind in ("import", "importzp", "forced") and any((0, name) in self.definitions for name in s.parts[0]):
                raise Refused("imported and defined")

    def needs(self):
        """The imports that its values and exports rest on, and those that are forced."""
        found, left, seen = [*self.forced], [], set()
        left = [(self.end, ("name", [name])) for name in self.exports]
        left += [(s, e) for s in self.laid for e in s.expressions()]
        while left:
            s, e = left.pop()
            for it in operands(e):
                at = None if isinstance(it, int) or it == ("here",) else self.meaning(s, it)
                if isinstance(at, str):
                    found.append(at)
                elif at is not None and at not in seen and self.laid[at].kind == "constant":
                    seen.add(at)
                    left.append((self.laid[at], self.laid[at].parts[1]))
        return found
