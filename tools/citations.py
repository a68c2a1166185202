"""Changes and lists for rename.py outside the crates: the pages' citations, and the scripts that name code."""
import glob
import os
import re

import naming

TICKED = re.compile(r"`([^`\n]+)`")
STRING = re.compile(r"'''.*?'''|\"\"\".*?\"\"\"|'(?:\\.|[^'\\\n])*'|\"(?:\\.|[^\"\\\n])*\"", re.S)
GENERATED = ("src/instructions/", "specs/Mnemonics", "specs/Opcodes")


def prelude_line(prelude, name):
    """Returns the line of the Prelude that has a name in any case of letters, or none."""
    if not os.path.exists(prelude):
        return None
    for number, line in enumerate(naming.read(prelude).split("\n"), 1):
        if re.search(rf"(?i)(?<!\w){re.escape(name)}(?!\w)", line):
            return number
    return None


def pages_after(renaming, pages, maker):
    """Yields the pages that change: citations in backquotes, of the heading's crate or where a name has one meaning."""
    moved = {it.path[7:]: new[7:] for it in renaming.tree.files if (new := renaming.path_after(it)) != it.path}
    for name in pages:
        path = f"docs/{name}.md"
        if not os.path.exists(f"{renaming.folder}/{path}"):
            continue
        text, lines, crate = naming.read(f"{renaming.folder}/{path}"), [], None
        for number, line in enumerate(text.split("\n"), 1):
            for old, new in moved.items():
                line = line.replace(old, new)
            crate = (re.search(r"\w+65", line) or [None])[0] if line.startswith("#") else crate
            row = re.match(r"\| (\w+65) \|", line)
            lines.append(TICKED.sub(lambda it: cited(renaming, f"{path}:{number}", row[1] if row else crate, it), line))
        if (new := "\n".join(lines)) != text:
            yield path, new
    path, rows = f"{renaming.folder}/{maker}", {}
    for file, edits in renaming.edits.items():
        if file.path.startswith(tuple(f"crates/syntax65/{it}" for it in GENERATED)):
            rows.update({old: new for old, new, _ in edits.values()})
    if rows and os.path.exists(path):
        word = re.compile(r"(?<!\{)\{[^{}\n]*\}(?!\})|(?<!\w)(?:" + "|".join(map(re.escape, rows)) + r")(?!\w)")
        text = naming.read(path)
        new = STRING.sub(lambda it: word.sub(lambda w: rows.get(w[0], w[0]), it[0]), text)
        if new != text:
            yield maker, new


def cited(renaming, where, crate, match):
    """Returns a citation with the names that it means renamed."""
    before = re.search(r"(\w+65) (?:`[^`]*`(?:, | and ))*$", match.string[: match.start()])
    crate = before[1] if before else crate

    def new_name(it):
        rows = [row for row in renaming.rows if row.old == it[0] and row.kind not in ("field", "variable")]
        own = [row for row in rows if crate in row.crates or "*" in row.crates]
        if own and own[0].kind in ("definition", "function", "method", "type") and renaming.tree.is_other(crate, it[0]):
            renaming.notes.append(f"{where}: `{match[1]}`: a clause or a module has this name, too")
            return it[0]
        if own:
            return own[0].new
        if rows and rows[0].kind != "label" and len(renaming.tree.meanings(it[0])) == 1 and not renaming.tree.meanings(rows[0].new):
            return rows[0].new
        if rows:
            renaming.notes.append(f"{where}: `{match[1]}`")
        return it[0]

    if "/src/" in match[1] or "/specs/" in match[1]:
        return match[0]
    return "`" + renaming.word.sub(new_name, match[1]) + "`"


def patterns(folder, word):
    """Returns the lines of the gate's and the tests' scripts that have an old name in a string."""
    found = []
    for path in sorted(glob.glob(f"{folder}/gate/*.py") + glob.glob(f"{folder}/tests/*.py")):
        for number, line in enumerate(naming.read(path).split("\n"), 1):
            if any(word.search(it) for it in STRING.findall(line)):
                found.append(f"{os.path.relpath(path, folder)}:{number}: pattern: {line.strip()}")
    return found


def statements(path, text):
    """Returns the definitions of a file, or the clauses of its functions, without comments and imports; runs of spaces are one."""
    if path.endswith(".antt"):
        text = naming.GHOST_USE.sub("", naming.blanked(text, naming.PROOF, True))
        return [" ".join(it.split()) for it in text.split("\n") if it.strip() and not it.strip() == "pub"]
    code, found = naming.blanked(text, naming.RUST), []
    whole = naming.blanked(text, naming.RUST, True)
    for it in naming.GHOST.finditer(code):
        function = (re.findall(r"\bfn (\w+)", code[: it.start()]) or [""])[-1]
        found.append(" ".join(f"{function}: {whole[it.start(): naming.closing(code, it.end() - 1) + 1]}".split()))
    return found
