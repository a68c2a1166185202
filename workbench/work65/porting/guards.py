"""Guards of included files: the name that a file asks for and defines, so that it counts once. No -D gives such a name."""
from typing import List, Optional

from work65.frontend.statements import Statement, statement_in


def guard_of(lines: List[str]) -> Optional[str]:
    """Returns the guard of a file: its first line asks whether the name is missing, its second one defines it, and its last one ends that."""
    code = [it for it in lines if it.split(";")[0].strip()]
    if len(code) < 3 or _statement(code[-1]).head != ".endif":
        return None
    first, second = _statement(code[0]), _statement(code[1])
    name = asked(first)
    if first.head != ".ifndef" or name is None:
        return None
    body = [it.text for it in second.body if it.text != "::"]
    is_define = len(body) > 1 and second.head == ".define" and body[1] == name
    is_constant = len(body) > 2 and body[0] == name and body[1] in ("=", ":=", ".set")
    return name if is_define or is_constant else None


def asked(statement: Statement) -> Optional[str]:
    """Returns the name that an .ifdef or .ifndef asks for, without the `::` before it; None where it has scopes."""
    names = statement.rest[1:] if statement.rest and statement.rest[0].text == "::" else statement.rest
    return names[0].text if len(names) == 1 else None


def _statement(text: str) -> Statement:
    return statement_in(text)
