"""Checks in the code what no contract can state, since contracts describe contents only: the linker builds no object of a module,
none of its types keeps a record, and the assembler has no list of statements. tests/measured.py measures their memory."""
import re

# A linker that receives records one by one builds no object of a module, and keeps none of its records or items.
LINKER = ("link65",)
# A one-pass assembler keeps the deferred parts of a statement, but no list of statements.
ASSEMBLER = ("asm65", "symbols65", "emit65")
TOKEN = re.compile(r"'\w+\b(?!')|\w+|::|->|=>|\S")
# A declared type: its name, and what it holds, up to a semicolon outside of brackets or through its braces.
DECLARED = re.compile(r"\b(?:struct|enum|union|type)\s+([A-Za-z_]\w*)"
                      r"((?:[^;{(\[]|\((?:[^()]|\([^()]*\))*\)|\[[^\[\]]*\])*(?:\{(?:[^{}]|\{[^{}]*\})*\})?)")
CLOSED_BY = {"(": ")", "[": "]"}
# Types that contain a single value of a named type: a reference, an option or a result of it, a path, a call, a block.
ONE = {"Option", "Result"}


def types_in(code):
    """Returns the types that the code declares: the name, and the tokens of the declaration."""
    return [(name, TOKEN.findall(rest)) for name, rest in DECLARED.findall(code)]


def aliases(code, *names):
    """Returns these names, and what imports and `type` items call them."""
    found = {*names}
    found.update(other for name, other in re.findall(r"\b(\w+)\s+as\s+(\w+)", code) if name in names)
    return found.union(name for name, words in types_in(code) if words[:1] == ["="] and found & {*words})


def holders(code, names):
    """Returns the declared types that hold one of these, also through each other."""
    declared, found = types_in(code), set()
    while more := {name for name, words in declared if words[:1] != ["="] and (names | found) & {*words}} - found:
        found |= more
    return sorted(found)


def lists_of(tokens, names):
    """Returns the first type in the code that holds several of these values: any generic type, array, slice or tuple around
    the name but an option or a result."""
    opened = []
    for at, word in enumerate(tokens):
        if word in ("<", "[", "("):
            opened.append((word, tokens[at - 1] if at else ""))
        elif word in (">", "]", ")"):
            # (an arrow is one token, and a comparison has no list)
            while opened and CLOSED_BY.get(opened[-1][0], ">") != word:
                opened.pop()
            opened = opened[:-1]
        elif word in ("{", "}", ";"):
            opened = []
        elif word in names and tokens[at + 1 : at + 2] != ["::"] and opened:
            is_generic = any(around == "<" and front not in ONE | {"impl", "for"} for around, front in opened)
            if is_generic or opened[-1][0] == "[" and tokens[at - 1] in ("[", ";", "mut"):
                return " ".join(tokens[max(0, at - 4) : at + 3])
    return None


def why_kept(crate, code):
    """Returns what a crate's code keeps that it may not, or None. The code has no comments, strings and clauses."""
    tokens, what = TOKEN.findall(code), "the linker keeps records" if crate in LINKER else "the assembler keeps statements"
    if crate not in LINKER + ASSEMBLER:
        return None
    if crate in LINKER and (named := aliases(code, "Builder", "Object", "read_object") & {*tokens}):
        return f"the linker makes a module's object: it names {', '.join(sorted(named))}"
    names = aliases(code, "Record", "Item") if crate in LINKER else aliases(code, "Statement")
    held = holders(code, names) or lists_of(tokens, names)
    return f"{what}: {held}" if held else None
