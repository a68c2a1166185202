"""The documented forms of the program's messages."""

import re

WORDS = {
    "any": "out of memory|file not found|file error",
    "source": (
        "bad character|bad number|string not closed|line too long|name too long|not constant|nested over 256|too many lines"
        "|block not closed|block end without begin|too many arguments|macro defined twice|macro inside macro"
        "|repeat count out of range|file too long|directive not understood|replaced line too long|statement not understood"
        "|no such addressing form|(?:defined twice|undefined name|no such scope|scope defined twice|imported and defined"
        "|export not defined): .+|circular definition|out of range|zero divisor or bad shift count|expression too large"
        "|section too large|no such unnamed label|bad alignment|popseg without pushseg|operand not constant or out of range"
        "|incbin out of range|segment size changed|scope not open or not closed|file name too long"
    ),
    "object": (
        "not an object|unknown version|object cut short|unknown record|record out of order|index out of range|bad size"
        "|not canonical|bytes after the end"
    ),
    "library": (
        "not a library|library cut short|bad index|no such member: .*|member is not an object|index disagrees with member"
        "|bad member name"
    ),
    "script": (
        "syntax error|unknown attribute|attribute twice|attribute missing|name twice|no such area|value out of range"
        "|attributes exclude each other|script too long|no such name: .+|ambiguous name: .+"
    ),
    "link": (
        "segment has no row: .+|read-only area: .+|start below what is placed: .+|overflow of .+ by [0-9]+ bytes"
        "|duplicate export: .+|unresolved: .+|name not yet placed: .+|area value out of range: .+"
    ),
    "value": "circular definition|out of range|zero divisor or bad shift count",
}


def form(text):
    return re.compile(text.encode(), re.DOTALL)


ANY, OBJECT, LIBRARY = WORDS["any"], WORDS["object"], WORDS["library"]
FORMS = {
    "ca65": form(f"bin65: Error: (bad arguments|out of memory)|.*: Error: ({WORDS['source']}|{ANY})"),
    "ld65": form(
        f".*:[0-9]+: Error: ({WORDS['script']}|{WORDS['value']})|ld65: Error: ({WORDS['link']}|out of memory)"
        f"|.*: Error: ({OBJECT}|{LIBRARY}|file not found|file error)|bin65: Error: (bad arguments|out of memory)"
    ),
    "ar65": form(f"bin65: Error: (bad arguments|out of memory)|.*: Error: ({LIBRARY}|{ANY})"),
}
# A source and an object hold texts of their own.
OWN_TEXT = form(r".*:[0-9]+: Error: .*")
WARNINGS = {
    "ca65": form(r".*:[0-9]+: Warning: .*"),
    "ld65": form(r"ld65: Warning: segment .* (does not exist|needs alignment [0-9]+|holds data that is not written)|.*:[0-9]+: Warning: .*"),
    "ar65": form("a^"),
}


def is_message(tool, line, files):
    if FORMS[tool].fullmatch(line):
        return True
    has_texts = tool == "ca65" and any(re.search(rb"(?i)\.(error|assert)", it) for it in files.values())
    has_asserts = tool == "ld65" and any(b"\x07" in it for it in files.values())
    return (has_texts or has_asserts) and OWN_TEXT.fullmatch(line) is not None
