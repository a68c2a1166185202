"""`.enum`, `.struct` and `.union`: their members become constants, and their size one more."""
from typing import List, Optional, Sequence, Tuple

from work65.frontend import words
from work65.frontend.edits import text_of_tokens
from work65.frontend.expression import scoped_name, value
from work65.frontend.statements import Statement
from work65.frontend.tokens import Kind, Token, line_of
from work65.porting.context import Context, Structure
from work65.porting.line import Unportable, commented_out

UNITS = {".byte": 1, ".byt": 1, ".char": 1, ".word": 2, ".addr": 2, ".dbyt": 2, ".faraddr": 3, ".dword": 4}
OPENERS = (".struct", ".union", ".enum")
CLOSERS = {".endstruct": ".struct", ".endunion": ".union", ".endenum": ".enum"}
ASKING = words.CONDITIONS | {".else", ".elseif"}
CONDITIONS = ASKING | {".endif"}


def opened(text: str, statement: Statement, context: Context) -> List[str]:
    """Returns the line that opens a structure or an enum: a scope where it has a name, and else a comment."""
    if statement.label is not None or context.repeats:
        raise Unportable(statement.body[0].text, statement.head[1:])
    name = statement.rest[0].text if statement.rest and statement.rest[0].kind is Kind.NAME else ""
    it = Structure(statement.head, name)
    above = context.structures[-1] if context.structures else None
    if above is not None:
        if above.word == ".enum" or statement.head == ".enum":
            raise Unportable(statement.head, statement.head[1:])
        it.depth = above.depth + 1
        if not name:
            it.base, it.base_value = _begin(above)
            it.offset, it.value = it.base, it.base_value
    context.structures.append(it)
    if not name:
        return [commented_out(text)]
    first = statement.body[0]
    return [text[: first.start] + ".scope" + text[first.end :]]


def _begin(it: Structure) -> Tuple[str, Optional[int]]:
    """Returns the offset of the next member of a structure."""
    return (it.base, it.base_value) if it.word == ".union" else (it.offset, it.value)


def closed(text: str, statement: Statement, context: Context) -> List[str]:
    """Returns the line that closes one: its size, and the end of its scope."""
    word = CLOSERS[statement.head]
    if not context.structures or context.structures[-1].word != word:
        raise Unportable(statement.head, word[1:])
    it = context.structures.pop()
    size_value = _size(it)
    above = context.structures[-1] if context.structures else None
    if above is not None:
        _grow(above, f"{_spelled(it)}", size_value)
        above.members.update(it.members if not it.name else {it.name: size_value})
        if it.member:
            above.members[it.member] = size_value
    if not it.name:
        return [commented_out(text)]
    first = statement.body[0]
    end = text[: first.start] + ".endscope" + text[first.end :]
    if word == ".enum":
        return [end]
    size_name = context.size_name
    path = "::".join([*context.path, *(one.name for one in context.structures if one.name), it.name])
    context.sizes[path] = size_value
    context.sizes.update({f"{path}::{name}": size for name, size in it.members.items()})
    context.constants[tuple(path.split("::")) + (size_name,)] = size_value
    return [f"{text[: first.start]}{size_name} = {_spelled(it)}", end]


def _size(it: Structure) -> Optional[int]:
    if it.word == ".union":
        return it.largest
    return it.whole


def _spelled(it: Structure) -> str:
    """Returns a structure's size as it is written."""
    size = _size(it)
    if size is not None:
        return str(size)
    if it.word == ".union" or it.base != "0":
        raise Unportable(it.word, it.word[1:], "its size can't be determined: write the offsets out")
    return it.offset


def _grow(it: Structure, spelled: str, size: Optional[int]) -> None:
    """Adds a member of this size."""
    if it.word == ".union":
        if size is None:
            raise Unportable(it.word, "union", "its size can't be determined: write the offsets out")
        it.largest = max(it.largest or 0, size)
        return
    it.whole = None if size is None or it.whole is None else it.whole + size
    if size is not None and it.value is not None:
        it.value += size
        it.offset = str(it.value)
    else:
        it.value = None
        it.offset = spelled if it.offset == "0" else f"{it.offset} + {spelled}"


def is_member(statement: Statement, context: Context) -> bool:
    """Returns whether a line within a structure is treated as a member: not one that opens or closes another, nor a condition."""
    is_condition = statement.head in CONDITIONS and context.structures[-1].word != ".enum"
    return not is_condition and statement.head not in CLOSERS and statement.head not in OPENERS


def member(text: str, statement: Statement, context: Context) -> List[str]:
    """Returns a line within a structure or an enum."""
    it = context.structures[-1]
    tokens = line_of(text).tokens
    if not tokens:
        return [text]
    if tokens[0].lower in CONDITIONS or tokens[0].lower in (".repeat", ".include"):
        raise Unportable(tokens[0].text, it.word[1:], "it contains a condition: write the constants out")
    if it.word == ".enum":
        return [_enumerated(text, tokens, it, context)]
    name: Optional[Token] = None
    if tokens[0].kind is Kind.NAME:
        name, tokens = tokens[0], tokens[1:]
        if tokens and tokens[0].text == ":":
            tokens = tokens[1:]
    if name is None and tokens[0].lower == ".org":
        return _moved(text, tokens, it, context)
    offset = _begin(it)[0]
    if name is not None and tokens and tokens[0].lower in (".struct", ".union"):
        return _named_part(text, name, tokens, context)
    spelled, size = ("0", 0) if not tokens else _member_size(text, tokens, context)
    _grow(it, spelled, size)
    comment = text[line_of(text).comment :]
    if name is None:
        return [commented_out(text)]
    it.members[name.text] = size
    _note(name.text, _number(offset), context)
    return [f"{text[: name.start]}{name.text} = {offset}{'        ' + comment if comment else ''}"]


def _moved(text: str, tokens: Sequence[Token], it: Structure, context: Context) -> List[str]:
    """Returns a .org in a structure, which sets the offset of the next member."""
    found = value(tokens[1:], context.certain)
    if found is None:
        raise Unportable(".org", "struct", "its value can't be determined: write the offsets out")
    if it.word == ".union":
        it.base, it.base_value = str(found), found
    else:
        it.offset, it.value = str(found), found
    return [commented_out(text)]


def _named_part(text: str, name: Token, tokens: Sequence[Token], context: Context) -> List[str]:
    """Returns a member that is a structure itself: its offset, and the structure's first line."""
    above = context.structures[-1]
    offset = _begin(above)[0]
    _note(name.text, _number(offset), context)
    lines = opened(text, Statement(None, True, tuple(tokens)), context)
    context.structures[-1].member = name.text
    comment = text[line_of(text).comment :]
    first = f"{text[: name.start]}{name.text} = {offset}{'        ' + comment if comment else ''}"
    indent = text[: name.start] if not text[: name.start].strip() else ""
    return [first, *(f"{indent}.scope {one.name}" for one in context.structures[-1:] if one.name and lines)]


def _number(text: str) -> Optional[int]:
    return int(text) if text.isdigit() else None


def _note(name: str, found: Optional[int], context: Context) -> None:
    """Notes the value of a member."""
    inside = tuple(one.name for one in context.structures if one.name)
    context.constants[context.path + inside + (name,)] = found


def _member_size(text: str, tokens: Sequence[Token], context: Context) -> Tuple[str, Optional[int]]:
    """Returns how many bytes a member has: as it is written, and its value."""
    head, rest = tokens[0], tokens[1:]
    if head.lower in UNITS:
        unit = UNITS[head.lower]
        if not rest:
            return str(unit), unit
        count = value(rest, context.certain)
        return f"{unit} * ({text_of_tokens(text, rest)})", None if count is None else unit * count
    if head.lower == ".res" and rest:
        return f"({text_of_tokens(text, rest)})", value(rest, context.certain)
    if head.lower == ".tag" and rest:
        name, at = scoped_name(rest, 0)
        if at == len(rest):
            return f"{name}::{context.size_name}", size_named(name, context)
    raise Unportable(head.text, "struct", "it has a member of another kind: write the offsets out")


def size_named(name: str, context: Context) -> Optional[int]:
    """Returns the size of a structure or of its member, by its name from the innermost scope outward."""
    if name.startswith("::"):
        return context.sizes.get(name[2:])
    path = list(context.path)
    for depth in range(len(path), -1, -1):
        whole = "::".join([*path[:depth], name])
        if whole in context.sizes:
            return context.sizes[whole]
    return None


def _enumerated(text: str, tokens: Sequence[Token], it: Structure, context: Context) -> str:
    """Returns a member of an enum."""
    name = tokens[0]
    if name.kind is not Kind.NAME or (len(tokens) > 1 and tokens[1].text not in ("=", ":=")):
        raise Unportable(name.text, "enum")
    if len(tokens) > 2:
        found = value(tokens[2:], context.certain)
        shown, it.base = text_of_tokens(text, tokens[2:]), name.text
    else:
        found = it.value
        shown = it.offset if found is None else str(found)
    _note(name.text, found, context)
    it.value = None if found is None else found + 1
    it.offset = f"{name.text} + 1"
    comment = text[line_of(text).comment :]
    gap = text[tokens[-1].end : line_of(text).comment] if comment else ""
    return f"{text[: name.start]}{name.text} = {shown}{gap}{comment}"
