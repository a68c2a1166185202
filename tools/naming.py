"""Reads a tree for rename.py: what each file imports and declares, and what a word of it names."""
import bisect
import glob
import os
import re

AREAS = {"src": "src", "specs": "specs", "proofs": "proofs", "must-fail": "edits", "mutants": "edits"}
CHAR = r"b?'(?:\\(?:u\{\w+\}|x\w\w|.)|[^'\\\n])'"
RUST = re.compile(r"""(?P<comment>//[^\n]*|/\*.*?\*/)|b?r(?P<h>#*)".*?"(?P=h)|b?"(?:\\.|[^"\\])*"|""" + CHAR, re.S)
LINE = re.compile(r"""(?P<comment>//[^\n]*)|b?"(?:\\.|[^"\\\n])*"|""" + CHAR + r"|^(?:file:.*|old:|new:)", re.M)
PROOF = re.compile(r"""(?P<comment>(?<!\S)--[^\n]*)|"(?:\\.|[^"\\\n])*\"""", re.M)
GHOST_USE = re.compile(r"\buse\s+Rattle\.([\w.+]+?)(?:\.\{([^}]*)\}|\s+as\s+(\w+))?[ \t]*(?=;|\n|$)")
RUST_USE = re.compile(r"(?<!ghost )\buse\s+((?!Rattle\.)[^;]+);")
GHOST = re.compile(r"\b(?:requires|ensures|ghost)\b(?:\s+(?!use\b)\w+)?\s*[:=]?\s*\{")
OWNER = re.compile(r"\b(impl|trait|enum)\b(?:<[^{;]*?>(?= ))?([^{;]*?)\{")
ITEM = re.compile(r"^(?:pub(?:\([^)]*\))? )?(?:const |unsafe )*(?:struct|enum|trait|type|fn|const|static|union) (\w+)", re.M)
DEFINED = re.compile(r"^( *)((?:(?:pub|abbrev|unfoldable|record|data|module) )*)([^\s:({]+)(?=\s*[:({])", re.M)
DECLARED = re.compile(r"\b(?:fn|struct|enum|trait|type|const|static|mod|ghost|ensures|requires|pub|record|data|abbrev) (\w+)")
HEADS = ("c", "l", "g")


def read(path):
    with open(path, encoding="utf-8", newline="") as it:
        return it.read()


def blanked(text, pattern, keeps_strings=False):
    """Returns a text of the same length without comments and strings."""
    return pattern.sub(lambda it: it[0] if keeps_strings and not it["comment"] else re.sub(r"[^\n]", " ", it[0]), text)


def closing(code, at):
    """Returns the index of the brace that closes the one at this index."""
    depth = 0
    for it in re.compile(r"[{}]").finditer(code, at):
        depth += 1 if it[0] == "{" else -1
        if not depth:
            return it.start()
    return len(code)


def leaves(tree_of_use):
    """Yields the leaves of a Rust `use`: segments with their indices, and the alias."""
    stack, path, alias, is_as = [0], [], None, False
    for it in re.finditer(r"\w+|[{},*]", tree_of_use + ","):
        if it[0] in ",}":
            if len(path) > stack[-1]:
                yield [*path], alias
            path, alias = path[: stack[-1]], None
            if it[0] == "}":
                stack.pop()
                path = path[: stack[-1]]
        elif it[0] == "{":
            stack.append(len(path))
        elif is_as or it[0] == "as":
            alias, is_as = (it[0], False) if is_as else (None, True)
        else:
            path.append((it[0], it.start()))


class File:
    """A file of a crate. Its module is a dotted path; source is the module of code that it belongs to."""

    def __init__(self, root, crate, area, path):
        self.path, self.crate, self.area = path, crate, area
        self.text = read(f"{root}/{path}")
        self.pattern = LINE if area == "edits" else RUST if path.endswith(".rt") else PROOF
        self.code = blanked(self.text, self.pattern)
        inner = os.path.splitext(path.split("/", 3)[3])[0].replace("/", ".")
        self.module = "" if inner in ("lib", "main", "Lib") else inner
        self.source, self.host, self.bases = (self.module if area == "src" else None), None, []
        self.bindings, self.at_use, self.owners = {}, {}, []
        self.heads, self.declared = [], set()
        self.read_declared()
        opened = [it.end() - 1 for it in GHOST.finditer(self.code)] if area in ("src", "edits") else []
        self.ghosts = [(it, closing(self.code, it)) for it in opened]
        self.lower = {it.lower() for it in re.findall(r"\w+", self.code)}
        self.functions = [(it.start(), it[1]) for it in re.finditer(r"\bfn (\w+)", self.code)]

    def where(self, at):
        return f"{self.path}:{self.text.count(chr(10), 0, at) + 1}"

    def front(self):
        return f"{self.crate}." + (f"{self.area}." if self.area in ("specs", "proofs") else "") + (f"{self.module}." if self.module else "")

    def read_declared(self):
        """Finds what is declared at the top, and in data and modules of definitions; what records have are fields."""
        if self.area == "src":
            self.declared = {it[1] for it in ITEM.finditer(self.code)}
        for it in DEFINED.finditer(self.code) if self.area in ("specs", "proofs") else ():
            if not it[1]:
                self.heads.append((it.start(), it[2]))
            if not it[1] or (self.heads and re.search("data|module", self.heads[-1][1])):
                self.declared.add(it[3])

    def is_in_record(self, at):
        index = bisect.bisect_left(self.heads, (at, ""))
        return index > 0 and "record" in self.heads[index - 1][1]

    # ---- What it imports.

    def bind(self, name, path, scope, is_ghost):
        self.bindings.setdefault(name, []).append((scope, is_ghost, path))

    def scope_of(self, at):
        if self.area != "src":
            return (0, len(self.code))
        opener = self.opener(at, "{")
        return (opener, closing(self.code, opener)) if opener is not None else (0, len(self.code))

    def opener(self, at, which="({["):
        """Returns the index of the innermost open bracket before an index."""
        depth = {"(": 0, "{": 0, "[": 0}
        for index in range(at - 1, -1, -1):
            char = self.code[index]
            if char in ")}]":
                depth["({["[")}]".index(char)]] += 1
            elif char in depth:
                if not depth[char] and char in which:
                    return index
                depth[char] = max(0, depth[char] - 1)
        return None

    def read_uses(self, tree):
        for it in GHOST_USE.finditer(self.code):
            path, at, scope = it[1], it.start(1), self.scope_of(it.start())
            parts = path.split(".")
            for index, part in enumerate(parts):
                self.at_use[at] = ".".join(parts[: index + 1])
                at += len(part) + 1
            if it[2] is None:
                self.bind(it[3] or parts[-1], path, scope, True)
            for name in re.finditer(r"([^\s,]+)(?:\s+as\s+(\w+))?", it[2] or ""):
                self.at_use[it.start(2) + name.start(1)] = f"{path}.{name[1]}"
                self.bind(name[2] or name[1], f"{path}.{name[1]}", scope, True)
                if self.code[: it.start()].endswith("pub ") and self.area in ("specs", "proofs"):
                    tree.exports[f"{self.front()}{name[2] or name[1]}"] = f"{path}.{name[1]}"
        for it in RUST_USE.finditer(self.code) if self.area == "src" else ():
            scope = self.scope_of(it.start())
            for parts, alias in leaves(it[1]):
                names = [name for name, _ in parts]
                for index, (_, at) in enumerate(parts):
                    self.at_use[it.start(1) + at] = self.absolute(tree, names[: index + 1], None)
                path = self.absolute(tree, names, None)
                if path:
                    self.bind(alias or names[-1], path, scope, False)
                    if scope[0] == 0 and path != self.front() + (alias or names[-1]):
                        tree.exports.setdefault(self.front() + (alias or names[-1]), path)

    def read_owners(self):
        """Finds of each impl, trait and enum where it is and its type."""
        for it in OWNER.finditer(self.code) if self.area == "src" else ():
            head = it[2] if it[1] == "enum" else it[2].split(" where ")[0].split(" for ")[-1]
            head = re.sub(r"<[^<>]*>", "", re.sub(r"<[^<>]*>", "", head)).split(":")[0]
            if name := re.search(r"\w+", head):
                self.owners.append((it.end() - 1, closing(self.code, it.end() - 1), it[1], name[0]))

    def owner_at(self, at):
        return max((it for it in self.owners if it[0] < at < it[1]), default=None)

    def absolute(self, tree, names, at):
        """Returns the path that Rust segments mean; with an index, imports that hold there count."""
        if self.host:
            return self.host.absolute(tree, names, None if at is None else self.base_at(at))
        own = [self.crate, *filter(None, self.module.split("."))]
        first, rest = names[0], names[1:]
        if first == "Self" and at is not None and (owner := self.owner_at(at)):
            return self.absolute(tree, [owner[3], *rest], at)
        if first in ("crate", "self", "super"):
            path = own[:1] if first == "crate" else own if first == "self" else own[:-1]
            while rest[:1] == ["super"]:
                path, rest = path[:-1], rest[1:]
            return ".".join([*path, *rest])
        if at is not None and (path := self.bound(first, at, False)):
            return ".".join([path, *rest])
        if ".".join([*own, first]) in tree.modules or (at is not None and first in self.declared):
            return ".".join([*own, *names])
        return ".".join(names) if first in tree.crates else None

    def bound(self, name, at, is_ghost):
        """Returns the path of the innermost import of a name that holds at an index."""
        file, at = (self.host, self.base_at(at)) if self.host else (self, at)
        found = [it for it in file.bindings.get(name, ()) if it[0][0] <= at <= it[0][1] and it[1] == is_ghost]
        return max(found)[2] if found else None

    # ---- What a word names.

    def is_ghost(self, at):
        return self.area in ("specs", "proofs") or any(lo < at < hi for lo, hi in self.ghosts) or (
            self.host is not None and self.host.is_ghost(self.base_at(at)))

    def chain(self, at):
        """Returns the segments before a word that follows a dot."""
        return re.search(r"((?:[\w+-]+\.)*)(?:[\w+]+-)*$", self.code[max(0, at - 300): at])[1].split(".")[:-1]

    def is_part(self, at):
        """Whether a word is a part of a name with hyphens, and not the first."""
        return bool(re.match(r"\w-", self.code[max(0, at - 2): at]))

    def path_at(self, tree, at, word):
        """Returns the path of what a word names by imports and declarations, if any."""
        code = self.code
        if at in self.at_use:
            return self.at_use[at]
        if code[at - 2: at] == "::":
            names = re.search(r"((?:\w+::)+)$", code[max(0, at - 200): at])
            return self.absolute(tree, [*names[1].split("::")[:-1], word], at) if names else None
        is_ghost = self.is_ghost(at)
        if code[at - 1: at] == "." and code[at - 2: at] != "..":
            names = self.chain(at)
            if not is_ghost or not names or self.is_part(at):
                return None
            path = self.bound(names[0], at, True) or (self.type_path(names[0], at) if names[0][0].isupper() else None)
            return ".".join([*([path] if path else []), *names[1:], word]) if path or names[0] == "Rattle" else None
        before = re.search(r"(\w*)\s*$", code[max(0, at - 60): at])[1]
        if before == "mod":
            return f"{self.front()}{word}"
        if self.is_part(at) or (is_ghost and self.is_field(at, word)) or before in ("ensures", "requires", "ghost"):
            return None
        return self.bare_path(tree, at, word, is_ghost, before)

    def bare_path(self, tree, at, word, is_ghost, before):
        file = self.host or self
        if self.area in ("specs", "proofs") or is_ghost:
            path = self.bound(word, at, True)
            if not path and self.area in ("specs", "proofs") and word in self.declared:
                path = self.front() + word
            if path or self.area in ("specs", "proofs") or not word[0].isupper():
                return path
        owner = file.owner_at(at) if file is self else None
        if owner and owner[2] == "enum" and self.opener(at) == owner[0] and re.search(r"[{,\]]\s*$", self.code[:at]):
            return f"{self.front()}{owner[3]}.{word}"
        if (before == "fn" and owner) or self.is_short(at, word) or (self.is_field(at, word) and not word[0].isupper()):
            return None
        return self.bound(word, at, False) or (f"{file.front()}{word}" if word in file.declared else None)

    def type_path(self, name, at):
        """Returns the path of a type that a clause names by its name in the code."""
        file = self.host or self
        return self.bound(name, at, False) or (f"{file.front()}{name}" if file.area == "src" and name in file.declared else None)

    def is_field(self, at, word):
        """Whether a word is a label of a record, or a field of a struct with its colon."""
        code, end = self.code, at + len(word)
        before = re.search(r"(\S?)\s*$", code[max(0, at - 200): at])[1]
        if self.is_ghost(at):
            if before in ("{", ";") and re.match(r"\s*[=:](?!\S)", code[end: end + 20]):
                return True
            return self.is_in_record(at) and bool(re.search(r"\n[ ]+pub $", code[max(0, at - 40): at]))
        if not re.match(r"\s*:(?!:)", code[end: end + 20]) or before == "|" or re.search(r"\b(let|mut|ref)\s+$", code[max(0, at - 20): at]):
            return False
        opener = self.opener(at)
        return opener is None or code[opener] == "{"

    def is_short(self, at, word):
        """Whether a word of code is a field and a variable at once: `Line { place }`."""
        end = at + len(word)
        if word[0].isupper():
            return False
        if not re.search(r"[{,]\s*$", self.code[max(0, at - 200): at]) or not re.match(r"\s*[,}]", self.code[end: end + 200]):
            return False
        opener = None if self.is_ghost(at) else self.opener(at)
        if opener is None or self.code[opener] != "{":
            return False
        front = self.code[max(0, opener - 80): opener]
        return bool(re.search(r"\b[A-Z]\w* $", front)) and not re.search(r"(->|impl|for|use|ghost) [\w:]+ $", front)

    def kinds_at(self, at, word):
        """Returns the kinds of names that are found by position that a word can be."""
        code, end = self.code, at + len(word)
        after = re.match(r"\s*(\S?\S?)", code[end: end + 200])[1]
        before = re.search(r"(\w*)\s*$", code[max(0, at - 60): at])[1]
        if at in self.at_use or before in ("mod", "struct", "enum", "trait", "use", "as", "type", "ghost", "static"):
            return set()
        if before in ("ensures", "requires") and after.startswith("{"):
            return {"label"}
        if self.is_ghost(at):
            return self.ghost_kinds_at(at, word)
        is_call = after.startswith("(") or after == "::"
        if code[at - 2: at] == "::" or before in ("fn", "const"):
            return {"method"}
        if code[at - 1: at] == "." and code[at - 2: at] != "..":
            return {"method"} if is_call else {"field"}
        if self.is_field(at, word):
            return {"field"}
        if self.is_short(at, word):
            return {"field", "variable"}
        return set() if is_call or (after.startswith("!") and after != "!=") else {"variable"}

    def ghost_kinds_at(self, at, word):
        if self.is_part(at):
            part = re.search(r"(\w+)-$", self.code[max(0, at - 80): at])[1]
            return {"label"} if part == "clause" else {"field", "variable"} if part == "field" else {"variable"}
        if self.code[at - 1: at] == "." and self.code[at - 2: at] != "..":
            names = self.chain(at)
            last = names[-1] if names else ""
            if last in ("ensures", "requires"):
                return {"label"}
            # (elsewhere `c` and `l` are variables like others)
            is_first = len(names) == 1 and last in HEADS and os.path.basename(self.path) in ("Answers.antt", "Invariants.antt")
            is_variable = last in ("args", "fn") or is_first or (len(names) == 2 and names[0] in HEADS and "-" in last)
            return {"variable"} if is_variable and self.area != "src" else set() if last == "invariant" else {"field"}
        return {"field"} if self.is_field(at, word) else {"variable"}

    def is_goal_part(self, at, word):
        """Whether a word is a part of a goal's name that can be a call or a variant."""
        if self.is_part(at):
            return not self.code[:at].endswith("clause-")
        names = self.chain(at)
        if re.match(r"\w+-(?:[\w-]+-)?requires\b", self.code[at: at + 120]):
            return True
        return self.code[at - 1: at] == "." and len(names) == 1 and names[0] in HEADS

    def function_at(self, at):
        """Returns the function whose clause a label is of."""
        if self.host and not self.code[:at].endswith("."):
            return self.host.function_at(self.base_at(at))
        if self.area == "src":
            index = bisect.bisect_left(self.functions, (at, ""))
            return self.functions[index - 1][1] if index else None
        names = self.chain(at)
        if self.code[at - 1: at] == "." and len(names) > 1:
            return re.sub(r"-\d+$", "", names[-2]).split("-")[-1]
        return os.path.basename(os.path.dirname(self.path)).lstrip("+")

    def base_at(self, at):
        """Returns the position of an edit's text in its file."""
        return ([0] + [base for start, base in self.bases if start <= at])[-1]

    def sees(self, tree, path):
        if self.host:
            return self.host.sees(tree, path)
        return any(tree.canonical(it[2]) == path for found in self.bindings.values() for it in found) or (
            self.crate == path.split(".")[0] and path.rpartition(".")[0] == self.front()[:-1])

    def imported(self, tree):
        """Returns the paths of the names that a file imports."""
        return {tree.canonical(it) for it in self.at_use.values() if it}

    def uses_of(self, name, is_label):
        """Yields where a name is in use: as it is, or in other letters what is declared or imported; labels meet labels alone."""
        if name.lower() not in self.lower:
            return
        if is_label:
            yield from (it.start(1) for it in re.finditer(rf"\b(?:ensures|requires)\s+({re.escape(name)})\s*\{{", self.code))
            return
        named = {*self.declared, *self.bindings, *DECLARED.findall(self.code)}
        for it in re.finditer(rf"(?i)(?<!\w){re.escape(name)}(?!\w)", self.code):
            if it[0] == name or (it[0] in named and "-" not in self.code[it.start() - 1: it.end() + 1: len(name) + 1]):
                yield it.start()

    def comments(self):
        for it in self.pattern.finditer(self.text):
            if it["comment"]:
                yield it.start(), it[0]

    def replaced(self, edits):
        parts, end = [], 0
        for at, (old, new, _) in sorted(edits.items()):
            parts += [self.text[end:at], new]
            end = at + len(old)
        return "".join([*parts, self.text[end:]])


class Tree:
    """The files of all crates."""

    def __init__(self, root):
        self.root, self.files, self.exports = root, [], {}
        self.needs = {it[1]: {*it[2].split()} for it in re.finditer(r"(?m)^(\w+)[^:#\n]*:(.*)$", read(f"{root}/crates.txt"))}
        self.crates = {os.path.basename(it) for it in glob.glob(f"{root}/crates/*")}
        for path in sorted(glob.glob(f"{root}/crates/*/*/**/*", recursive=True)):
            name = os.path.relpath(path, root)
            parts = name.split("/")
            if parts[2] in AREAS and path.endswith((".rt", ".antt", ".edit")):
                self.files.append(File(root, parts[1], AREAS[parts[2]], name))
        self.needs.update({it: set() for it in self.crates - {*self.needs}})
        self.code = {(it.crate, it.module): it for it in self.files if it.area == "src"}
        self.modules = {f"{crate}.{module}" for crate, module in self.code}
        for file in self.files:
            self.place(file)
            file.read_uses(self)
            file.read_owners()

    def place(self, file):
        """Finds the module of code that a proof or an edit is about."""
        if file.area == "edits" and (it := re.search(r"^file: src/(.*)\.rt$", file.text, re.M)):
            file.source = it[1].replace("/", ".") if it[1] not in ("lib", "main") else ""
            file.host = self.code.get((file.crate, file.source))
            for old in re.finditer(r"^old: *(.*?) *$", file.text, re.M) if file.host else ():
                base = file.host.text.find(old[1])
                file.bases += [(old.start(), base)] if base >= 0 else []
        elif file.area == "proofs":
            parts = file.module.split(".")
            paths = [".".join(parts[:at]) for at in range(len(parts) - 1, 0, -1)]
            file.source = next((it for it in paths if (file.crate, it) in self.code), "" if len(parts) > 1 else None)

    def canonical(self, path):
        """Follows re-exports."""
        for _ in range(6):
            parts = path.split(".")
            for at in range(len(parts), 1, -1):
                if (front := ".".join(parts[:at])) in self.exports:
                    path = ".".join([self.exports[front], *parts[at:]])
                    break
            else:
                return path
        return path

    def is_other(self, crate, name):
        """Returns whether a crate has a clause or a module of definitions with this name."""
        label = re.compile(rf"\b(?:ensures|requires) {re.escape(name)} \{{")
        return any(it.crate == crate and (it.area == "specs" and it.module == name or it.area == "src" and label.search(it.code)) for it in self.files)

    def has_call(self, crates, name):
        """Returns whether one of these crates has a function or method of this name."""
        return any(it.crate in crates and it.area == "src" and name in {function for _, function in it.functions} for it in self.files)

    def meanings(self, name):
        """Returns the modules that declare a name."""
        return {it.front() for it in self.files if name in it.declared} | {it for it in self.modules if it.endswith(f".{name}")}
