"""Converts `.define`: numbers become constants, other texts replace their uses."""
from typing import Callable, List, Optional, Sequence, Tuple

from work65.frontend import words
from work65.frontend.edits import edited, text_of_tokens
from work65.frontend.expression import value
from work65.frontend.statements import Statement
from work65.frontend.tokens import Kind, Token, line_of
from work65.porting.context import Context, Define
from work65.porting.line import Unportable, commented_out

BEFORE = frozenset((",", "#", "(", "=", ":=", "{"))
AFTER = frozenset((",", ")", "}"))
UNEXPANDED = frozenset((".define", ".undefine", ".undef"))
ENDS = words.CONDITIONS | {".else", ".elseif", ".endif"}
SIGNS = frozenset("<>=:&|*/-+")
MOST, LONGEST = 200, 10000


def expanded(text: str, context: Context, has_escapes: bool, is_whole: bool = False) -> str:
    """Returns a line with the defines in it replaced, as often as one comes out; as a whole, also those that are constants."""
    for _ in range(MOST):
        tokens = line_of(text, has_escapes).tokens
        skip = 2 if tokens and tokens[0].lower in UNEXPANDED else 0
        at = next((at for at, it in enumerate(tokens) if at >= skip and _is_use(tokens, at, context, is_whole)), None)
        if at is None:
            return text
        text = _replaced(text, tokens, at, context.defines[tokens[at].text])
        if len(text) > LONGEST:
            break
    raise Unportable(tokens[0].text, "define-list", "a .define that uses itself")


def _is_use(tokens: Sequence[Token], at: int, context: Context, is_whole: bool) -> bool:
    """Returns whether a token stands for a define that has to be replaced."""
    one = tokens[at]
    if one.kind is not Kind.NAME or one.text not in context.defines:
        return False
    if at and tokens[at - 1].text == "::" and at > 1 and tokens[at - 2].kind is Kind.NAME:
        return False
    define = context.defines[one.text]
    if not define.text and tokens[0].lower in (".ifdef", ".ifndef"):
        return False
    if define.is_ambiguous and not define.is_constant:
        raise Unportable(one.text, "define", "it has several values: write the constant or the text out")
    if not define.is_constant or is_whole and not define.is_ambiguous and (one.text,) not in context.uncertain:
        return True
    return len(define.tokens) > 1 and not _is_closed(define.tokens) and not _stands_alone(tokens, at)


def _is_closed(tokens: Sequence[Token]) -> bool:
    """Returns whether a value is in parentheses as a whole."""
    if tokens[0].text != "(" or tokens[-1].text != ")":
        return False
    depth = 0
    for at, it in enumerate(tokens):
        depth += (it.text == "(") - (it.text == ")")
        if depth == 0 and at < len(tokens) - 1:
            return False
    return True


def _stands_alone(tokens: Sequence[Token], at: int) -> bool:
    """Returns whether a use is an expression of its own, so that a constant means the same."""
    before = tokens[at - 1] if at else None
    after = tokens[at + 1] if at + 1 < len(tokens) else None
    is_first = before is None or before.text in BEFORE or before.kind is Kind.DIRECTIVE or before.lower in words.MNEMONICS
    if before is not None and (before.lower in words.PREFIX_WORDS or before.lower in words.INFIX_WORDS):
        is_first = False
    return is_first and (after is None or after.text in AFTER)


def _replaced(text: str, tokens: Sequence[Token], at: int, define: Define) -> str:
    """Returns a line with one use replaced."""
    if define.parameters is None:
        return edited(text, [(tokens[at].start, tokens[at].end, _apart(text, tokens[at].start, define.text))])
    values, end = _arguments(text, tokens, at, len(define.parameters))
    pieces = [
        (it.start, it.end, values[define.parameters.index(it.text)])
        for it in define.tokens
        if it.kind is Kind.NAME and it.text in define.parameters
    ]
    offset = define.tokens[0].start if define.tokens else 0
    body = edited(define.text, [(start - offset, stop - offset, new) for start, stop, new in pieces])
    return edited(text, [(tokens[at].start, end, _apart(text, tokens[at].start, body))])


def _apart(text: str, start: int, body: str) -> str:
    """Returns a define's text, after a blank if it would join an operator before it."""
    return f" {body}" if text[start - 1 : start] in SIGNS and body[:1] in SIGNS and start > 0 and body else body


def _arguments(text: str, tokens: Sequence[Token], at: int, count: int) -> Tuple[List[str], int]:
    """Returns the arguments of a define's use, and where they end: up to a comma each, the last up to a comma or the line's end."""
    found, end = [], tokens[at].end
    at += 1
    for number in range(count):
        if at < len(tokens) and tokens[at].text == "{":
            stop = next((it for it in range(at, len(tokens)) if tokens[it].text == "}"), len(tokens) - 1)
            found.append(text_of_tokens(text, tokens[at + 1 : stop]))
            end, at = tokens[stop].end, stop + 1
        else:
            stop = next((it for it in range(at, len(tokens)) if tokens[it].text == ","), len(tokens))
            found.append(text_of_tokens(text, tokens[at:stop]))
            end, at = tokens[stop - 1].end, stop
        if number + 1 < count:
            if at >= len(tokens) or tokens[at].text != ",":
                raise Unportable(tokens[0].text, "define-parameters", "an argument is missing")
            at += 1
    return found, end


def defined(text: str, statement: Statement, context: Context, is_single: bool, is_uncertain: Callable[[str], bool]) -> List[str]:
    """Returns the line of a `.define`."""
    if not statement.rest or statement.rest[0].kind is not Kind.NAME:
        raise Unportable(".define", "define")
    name, rest = statement.rest[0], statement.rest[1:]
    if rest and rest[0].lower in ENDS:
        raise Unportable(".define", "define-list", "it stands for the line of a condition: write that out")
    parameters: Optional[List[str]] = None
    if rest and rest[0].text == "(":
        close = next((at for at, it in enumerate(rest) if it.text == ")"), len(rest) - 1)
        parameters = [it.text for it in rest[1:close] if it.kind is Kind.NAME]
        rest = rest[close + 1 :]
    define = Define(parameters, text_of_tokens(text, rest), tuple(rest))
    before = context.defines.get(name.text)
    define.is_ambiguous = before is not None and before.text != define.text
    context.defines[name.text] = define
    is_free = (name.text,) not in context.constants or (before is not None and before.is_constant)
    if parameters is None and is_single and context.is_plain and is_free and (not rest or _number(rest, context) is not None):
        define.is_constant = bool(rest)
        if rest:
            context.constants[(name.text,)] = None if define.is_ambiguous else _number(rest, context)
        if rest and is_uncertain(name.text):
            context.uncertain.add((name.text,))
        comment = text[line_of(text).comment :]
        shown = define.text or "1"
        return [f"{text[: statement.body[0].start]}{name.text} = {shown}{'        ' + comment if comment else ''}"]
    if define.is_ambiguous:
        raise Unportable(".define", "define-list", "it has several values: write what you mean at each use")
    return [commented_out(text)]


def _number(tokens: Sequence[Token], context: Context) -> Optional[int]:
    """Returns the value of a define that is a number."""
    return value(tokens, context.certain)
