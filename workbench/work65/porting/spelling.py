"""Rewrites spellings that features allow, and the characters of strings."""
from typing import List, Optional, Sequence, Tuple

from work65.frontend import words
from work65.frontend.edits import edited, text_of_tokens
from work65.frontend.expression import value
from work65.frontend.statements import Statement, parts_of
from work65.frontend.tokens import Kind, Token, is_closed, line_of
from work65.porting.characters import as_elements, content
from work65.porting.context import Context
from work65.porting.line import Unportable, replaced

Edit = Tuple[int, int, str]
# Directives whose strings are names and texts, not data.
NAMING = frozenset(
    (".include", ".incbin", ".segment", ".out", ".warning", ".error", ".fatal", ".assert", ".setcpu", ".fileopt", ".fopt", ".charmap")
)
LONGEST = 400


def respelled(text: str, context: Context) -> str:
    """Returns a line with the spelling of bin65: numbers, brackets, cheap names, characters."""
    tokens = line_of(text, "string_escapes" in context.features).tokens
    edits: List[Edit] = _plain_parentheses(tokens) if "bracket_as_indirect" in context.features else []
    for at, it in enumerate(tokens):
        new = _respelled(it, tokens, at, context)
        if new is not None:
            edits.append((it.start, it.end, new))
    return edited(text, edits) if edits else text


def _plain_parentheses(tokens: Sequence[Token]) -> List[Edit]:
    """Returns where brackets are indirect, an operand that begins with a parenthesis is an address: a `+` says so."""
    at = next((at for at, it in enumerate(tokens[:4]) if it.lower in words.MNEMONICS | words.UNDOCUMENTED), None)
    if at is None or at + 1 >= len(tokens) or tokens[at + 1].text != "(":
        return []
    return [(tokens[at + 1].start, tokens[at + 1].start, "+")]


def _respelled(it: Token, tokens: Sequence[Token], at: int, context: Context) -> Optional[str]:
    """Returns a token in the spelling of bin65; None where it has it."""
    if it.kind is Kind.NUMBER:
        if it.text == "$":
            return "*"
        plain = it.text.replace("_", "")
        plain = plain[:-1] + "h" if plain.endswith("H") and plain[0] not in "$%" else plain
        return plain if plain != it.text else None
    if it.kind is Kind.CHEAP and len(it.text) > 1 and it.text[1].isdigit():
        return f"@_{it.text[1:]}"
    if it.text == "::" and at and tokens[at - 1].lower in ("a", "z") and at + 1 < len(tokens) and tokens[at + 1].text == ":":
        return ": "
    if it.text == ":" and at > 1 and tokens[at - 1].text == "::" and tokens[at - 2].lower in ("a", "z") and tokens[at - 1].end == it.start:
        return "::"
    if it.kind is Kind.UNNAMED and it.text[1] in "<>":
        return it.text.replace("<", "-").replace(">", "+")
    if it.kind is Kind.SIGN and it.text in "[]":
        return "(" if it.text == "[" else ")"
    if it.kind is Kind.CHARACTER and not is_closed(it):
        return _quoted(it, tokens, at)
    return None


def _quoted(it: Token, tokens: Sequence[Token], at: int) -> Optional[str]:
    """Returns a string or a character in the quotes of bin65."""
    if it.text.endswith("'") and len(it.text) > 2 and '"' not in it.text:
        return f'"{it.text[1:-1]}"'
    if len(it.text) == 2 and it.text != "''":
        return f"{it.text}'"
    return None


def translated(text: str, statement: Statement, context: Context) -> List[str]:
    """Returns a line with the codes of its characters, where they aren't those of its bytes."""
    has_escapes = "string_escapes" in context.features
    if statement.head in NAMING or statement.head in words.CONDITIONS and statement.head not in (".if", ".elseif"):
        if has_escapes and any("\\" in it.text for it in statement.body if it.kind is Kind.STRING):
            raise Unportable(statement.head, "escapes")
        return [_with_characters(text, statement, context)]
    if statement.head in (".byte", ".byt", ".asciiz"):
        return _data(text, statement, context, has_escapes)
    for it in statement.body:
        if it.kind is Kind.STRING and needs_codes(it, context):
            raise Unportable(it.text, "charmap", "the string's codes differ: write them as numbers")
    return [_with_characters(text, statement, context)]


def needs_codes(it: Token, context: Context) -> bool:
    """Returns whether a string has other codes than its bytes."""
    inner = content(it, "string_escapes" in context.features)
    return inner is None or inner != it.text[1:-1] or context.charmap.of(inner) != [ord(one) for one in inner]


def elements_of(it: Token, context: Context) -> List[str]:
    """Returns the codes of a string as elements of a list of bytes."""
    inner = content(it, "string_escapes" in context.features)
    if inner is None:
        raise Unportable(it.text, "escapes")
    return as_elements(context.charmap.of(inner)) or ['""']


def with_comment(text: str, strings: Sequence[str]) -> str:
    """Returns a line with the strings that became numbers as a comment, where it has none and they can be read."""
    line = line_of(text)
    is_shown = all(it.isprintable() for it in strings) and len(text) + sum(map(len, strings)) <= LONGEST
    if not strings or line.comment < len(text) or not is_shown:
        return text
    return f"{text}    ; {', '.join(dict.fromkeys(strings))}"


def _with_characters(text: str, statement: Statement, context: Context) -> str:
    """Returns a line with the codes of its characters."""
    edits: List[Edit] = []
    for it in statement.body:
        if it.kind is Kind.CHARACTER and is_closed(it):
            code = context.charmap.of(it.text[1])[0]
            if code != ord(it.text[1]):
                edits.append((it.start, it.end, f"${code:02X}"))
    return edited(text, edits) if edits else text


def with_codes(text: str, context: Context) -> str:
    """Returns a line with the codes of its characters, where the machine has others."""
    if not context.charmap.codes or "'" not in text:
        return text
    tokens = line_of(text, "string_escapes" in context.features).tokens
    return _with_characters(text, Statement(None, True, tokens), context)


def _data(text: str, statement: Statement, context: Context, has_escapes: bool) -> List[str]:
    """Returns a line of data with strings."""
    parts = parts_of(statement.rest)
    strings = [it[0] for it in parts if len(it) == 1 and it[0].kind is Kind.STRING]
    is_list = statement.head == ".asciiz" and len(parts) > 1
    if not is_list and not any(needs_codes(it, context) for it in strings):
        return [_with_characters(text, statement, context)]
    elements: List[str] = []
    for part in parts:
        if not part:
            raise Unportable(statement.head, "form", "an element of the list is missing")
        if len(part) == 1 and part[0].kind is Kind.STRING:
            elements += elements_of(part[0], context)
        else:
            inside = _with_characters(text_of_tokens(text, part), Statement(None, True, tuple(_moved(part))), context)
            elements.append(inside)
    if statement.head == ".asciiz" and len(elements) == 1 and elements[0].startswith('"'):
        return replaced(text, statement, [f".asciiz {elements[0]}"])
    ending = ["0"] if statement.head == ".asciiz" else []
    found = replaced(text, statement, [f".byte {', '.join(elements + ending)}"])
    changed = [it.text for it in strings if needs_codes(it, context)]
    return [with_comment(found[0], changed), *found[1:]]


def _moved(part: Sequence[Token]) -> List[Token]:
    """Returns tokens with their positions in a text of their own."""
    start = part[0].start
    return [it._replace(start=it.start - start, end=it.end - start) for it in part]


def codes_of(text: str, statement: Statement, context: Context) -> List[int]:
    """Returns the codes of the arguments of a macro that takes strings, characters and numbers."""
    found: List[int] = []
    for part in parts_of(statement.rest):
        if len(part) == 1 and part[0].kind is Kind.STRING:
            inner = content(part[0], "string_escapes" in context.features)
            if inner is None:
                raise Unportable(part[0].text, "escapes")
            found += context.charmap.of(inner)
            continue
        if len(part) == 1 and part[0].kind is Kind.CHARACTER:
            found += context.charmap.of(part[0].text[1])
            continue
        number = value(part, context.certain)
        if number is None or not 0 <= number < 256:
            raise Unportable(text_of_tokens(text, part) or "scrcode", "scrcode", "its value isn't known here: write the code")
        found.append(number)
    return found


def change_charmap(statement: Statement, context: Context) -> None:
    """Carries out a .charmap, .pushcharmap or .popcharmap."""
    if statement.head == ".pushcharmap":
        context.saved_charmaps.append(context.charmap.copied())
    elif statement.head == ".popcharmap":
        if context.saved_charmaps:
            context.charmap = context.saved_charmaps.pop()
    else:
        parts = parts_of(statement.rest)
        numbers = [value(it, context.certain) for it in parts]
        if len(numbers) != 2 or numbers[0] is None or numbers[1] is None:
            raise Unportable(".charmap", "charmap", "its numbers can't be determined: write the codes as numbers")
        context.charmap = context.charmap.copied()
        context.charmap.codes[numbers[0] & 255] = numbers[1] & 255
