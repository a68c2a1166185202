"""Statements that become others: data, imports of sizes, assertions, instructions that aren't documented."""
from typing import Callable, Dict, List, Optional, Sequence

from work65.frontend.edits import edited, text_of_tokens
from work65.frontend.expression import scoped_name, value
from work65.frontend.statements import Statement, parts_of
from work65.frontend.tokens import Kind, Token
from work65.porting.context import Context
from work65.porting.facts import star_in
from work65.porting.line import Unportable, commented_out, in_parentheses, replaced
from work65.porting.undocumented import OPCODES

Rewrite = Callable[[str, Statement, Context], List[str]]
SIZE_UNKNOWN = "the operand's size can't be determined: write z: or a: before it"
SIZES = {2: "zp", 3: "abs"}
GOES = frozenset(
    (".fopt", ".smart", ".fileopt", ".dbg", ".list", ".listbytes", ".pagelength", ".pagelen", ".debuginfo", ".linecont", ".localchar")
)
# Features whose spellings are rewritten, or reported where they occur.
FEATURES = frozenset(
    "addrsize at_in_identifiers bracket_as_indirect c_comments dollar_in_identifiers dollar_is_pc force_range labels_without_colons"
    " leading_dot_in_identifiers line_continuations long_jsr_jmp_rts loose_char_term loose_string_term missing_char_term org_per_seg"
    " pc_assignment string_escapes ubiquitous_idents underline_in_numbers".split()
)
KEPT = frozenset(("bracket_as_indirect", "force_range", "string_escapes"))


def _gone(text: str, statement: Statement, context: Context) -> List[str]:
    if statement.label is not None:
        return replaced(text, statement, [])
    return [commented_out(text)]


def _case(text: str, statement: Statement, context: Context) -> List[str]:
    if statement.rest and statement.rest[0].lower in ("-", "off"):
        raise Unportable(".case", "goes", "bin65 distinguishes capitals from small letters: spell each name in one way")
    return _gone(text, statement, context)


def _feature(text: str, statement: Statement, context: Context) -> List[str]:
    names = [it.lower for it in statement.rest if it.kind is Kind.NAME]
    wrong = next((it for it in names if it not in FEATURES), None)
    if wrong is not None:
        raise Unportable(wrong, "feature", "bin65 has no counterpart of what it allows")
    context.features |= KEPT & set(names)
    return [commented_out(text)]


def _bytes_of(sign: str) -> Rewrite:
    """Returns the rewriting of `.lobytes` or the like."""

    def rewrite(text: str, statement: Statement, context: Context) -> List[str]:
        parts = [it for it in parts_of(statement.rest) if it]
        elements = [f"{sign}{in_parentheses(text, it)}" for it in parts]
        if any(star_in(it) for it in parts[1:]):
            return replaced(text, statement, [f".byte {it}" for it in elements])
        return replaced(text, statement, [f".byte {', '.join(elements)}"])

    return rewrite


def _faraddr(text: str, statement: Statement, context: Context) -> List[str]:
    found = []
    for it in parts_of(statement.rest):
        if star_in(it):
            raise Unportable(".faraddr", "low", "`*` would differ in its two parts: use a label")
        inner = in_parentheses(text, it)
        found += [f".word {inner} & $FFFF", f".byte ^{inner}"]
    return replaced(text, statement, found)


def _tag(text: str, statement: Statement, context: Context) -> List[str]:
    name, at = scoped_name(statement.rest, 0)
    if not name or at != len(statement.rest):
        raise Unportable(".tag", "struct")
    return replaced(text, statement, [f".res {name}::{context.size_name}"])


def _assert(text: str, statement: Statement, context: Context) -> List[str]:
    parts = parts_of(statement.rest)
    if len(parts) < 2 or len(parts[1]) != 1:
        return [text]
    action = parts[1][0]
    plain = {"ldwarning": "warning", "lderror": "error"}.get(action.lower, action.lower)
    return [text if plain == action.text else edited(text, [(action.start, action.end, plain)])]


def _fatal(text: str, statement: Statement, context: Context) -> List[str]:
    first = statement.body[0]
    return [edited(text, [(first.start, first.end, ".error")])]


def _incbin(text: str, statement: Statement, context: Context) -> List[str]:
    rest = statement.rest
    if len(rest) > 3 and rest[-2].text == "-" and rest[-3].text == "," and rest[-1].text == "1":
        return [edited(text, [(rest[-3].start, rest[-1].end, "")])]
    return [text]


def _segment(text: str, statement: Statement, context: Context) -> List[str]:
    rest = statement.rest
    if len(rest) < 3:
        return [text]
    size = {"zp": "zeropage", "direct": "zeropage", "abs": "absolute", "near": "absolute"}.get(rest[2].lower, rest[2].lower)
    if size not in ("zeropage", "absolute"):
        raise Unportable(rest[2].text, "size-behind", "bin65 has no addresses of this size")
    return [text if size == rest[2].text else edited(text, [(rest[2].start, rest[2].end, size)])]


def _sized_scope(text: str, statement: Statement, context: Context) -> List[str]:
    colon = next((it for it in statement.rest if it.text == ":"), None)
    if colon is None:
        return [text]
    size = statement.rest[-1]
    if size.lower not in ("abs", "absolute", "near"):
        raise Unportable(size.text, "size-behind", "bin65 has no addresses of this size")
    return [text[: colon.start].rstrip() + text[size.end :]]


def _brk(text: str, statement: Statement, context: Context) -> List[str]:
    rest = statement.rest
    if not rest:
        return [text]
    operand = rest[1:] if rest[0].text == "#" else rest
    return replaced(text, statement, ["brk", f".byte {text_of_tokens(text, operand)}"])


def _setcpu(text: str, statement: Statement, context: Context) -> List[str]:
    name = statement.rest[0].lower.strip('"') if statement.rest else ""
    context.processor = name
    if name == "6502x":
        return [commented_out(text)]
    return [text]


STATEMENTS: Dict[str, Rewrite] = {
    ".feature": _feature, ".case": _case, ".lobytes": _bytes_of("<"), ".hibytes": _bytes_of(">"), ".bankbytes": _bytes_of("^"),
    ".faraddr": _faraddr, ".tag": _tag, ".assert": _assert, ".fatal": _fatal, ".incbin": _incbin, ".segment": _segment,
    ".proc": _sized_scope, ".scope": _sized_scope, "brk": _brk, ".setcpu": _setcpu, **{it: _gone for it in GOES},
}


def split_stars(text: str, statement: Statement, context: Context) -> List[str]:
    """Returns a list with `*` in a later element, an element a line."""
    parts = parts_of(statement.rest)
    if not any(star_in(it) for it in parts[1:]):
        return [text]
    return replaced(text, statement, [f"{statement.body[0].text} {text_of_tokens(text, it)}" for it in parts])


def as_data(text: str, statement: Statement, context: Context, size: Optional[int] = None) -> List[str]:
    """Returns an instruction that isn't documented, as its opcode and its operand. `size` is that of the line, where it is known."""
    forms = OPCODES.get(statement.head)
    if forms is None:
        raise Unportable(statement.body[0].text, "undocumented")
    rest = statement.rest
    form, operand = _form(rest, context)
    if form.startswith("?") and size in SIZES:
        form = SIZES[size] + form[1:]
    if form not in forms:
        form = _only(form, forms)
    if form not in forms:
        raise Unportable(statement.body[0].text, "undocumented", SIZE_UNKNOWN)
    opcode = f".byte ${forms[form]:02X}"
    if form.startswith("abs"):
        return replaced(text, statement, [opcode, f".word {text_of_tokens(text, operand)}"])
    return replaced(text, statement, [f"{opcode}, {text_of_tokens(text, operand)}" if operand else opcode])


def _only(form: str, forms: Dict[str, int]) -> str:
    """Returns a form in place of one that isn't there, or whose size isn't known: the absolute one, or the only one."""
    size, comma, index = form.partition(",")
    found = [it for it in (f"zp{comma}{index}", f"abs{comma}{index}") if it in forms]
    return found[0] if len(found) == 1 and (size == "?" or found[0].startswith("abs")) else form


def _form(rest: Sequence[Token], context: Context) -> "tuple[str, Sequence[Token]]":
    """Returns the form of an operand, and its expression."""
    if not rest:
        return "", ()
    if rest[0].text == "#":
        return "#", rest[1:]
    texts = [it.lower for it in rest]
    if texts[0] == "(" and texts[-3:] == [",", "x", ")"]:
        return "(zp,x)", rest[1:-3]
    if texts[0] == "(" and texts[-3:] == [")", ",", "y"]:
        return "(zp),y", rest[1:-3]
    index = f",{texts[-1]}" if len(texts) > 2 and texts[-2] == "," else ""
    operand = rest[:-2] if index else rest
    size: Optional[str] = None
    if operand[0].kind is Kind.PREFIX:
        size, operand = ("zp" if operand[0].lower == "z:" else "abs"), operand[1:]
    else:
        number = value(operand, context.value)
        if number is not None:
            size = "zp" if 0 <= number < 256 else "abs"
        elif operand[0].text in "<>^":
            size = "zp"
    return f"{size or '?'}{index}", operand


def with_colon(text: str, statement: Statement) -> str:
    """Returns a line whose label has its colon."""
    label = statement.label
    if label is None or statement.has_colon:
        return text
    rest = text[label.end :]
    gap = rest[1:] if rest.startswith("  ") else rest
    return text[: label.end] + ":" + gap



