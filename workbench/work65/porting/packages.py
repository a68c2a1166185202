"""The macros that `.macpack` brings, written anew for bin65."""
from typing import Dict, List

BRANCHES = {"jeq": "bne", "jne": "beq", "jmi": "bpl", "jpl": "bmi", "jcs": "bcc", "jcc": "bcs", "jvs": "bvc", "jvc": "bvs"}
NEAR = "_near"


def _longbranch() -> List[str]:
    """Branches that reach everywhere; those with _near go to a label above in the same segment, the short way where it is near."""
    lines = ["; Branches that reach everywhere. A _near one goes to a label further up: it is short where that is near."]
    for name, opposite in BRANCHES.items():
        short = "b" + name[1:]
        lines += [
            f".macro {name} place", f"        {opposite}     *+5", "        jmp     place", ".endmacro",
            f".macro {name}{NEAR} place", ".if * + 2 - (place) <= 127", f"        {short}     place", ".else",
            f"        {opposite}     *+5", "        jmp     place", ".endif", ".endmacro",
        ]
    return lines


def _generic() -> List[str]:
    lines = ["; Sums without a carry, and branches by other names."]
    for name, flag, instruction in (("add", "clc", "adc"), ("sub", "sec", "sbc")):
        lines += [
            f".macro {name} value, index", f"        {flag}", ".ifblank index", f"        {instruction}     value", ".else",
            f"        {instruction}     value, index", ".endif", ".endmacro",
        ]
    for name, instructions in (("bge", ("bcs",)), ("blt", ("bcc",)), ("bnz", ("bne",)), ("bze", ("beq",)), ("ble", ("beq", "bcc"))):
        lines += [f".macro {name} place", *(f"        {it}     place" for it in instructions), ".endmacro"]
    return lines + [
        ".macro bgt place", ".local equal", "        beq     equal", "        bcs     place", "equal:", ".endmacro",
    ]


def processors() -> Dict[str, int]:
    """Returns the numbers of processors, by their names."""
    sets = {"NONE": 1, "6502": 2, "6502X": 4, "65SC02": 8, "65C02": 0x10, "65816": 0x20, "SWEET16": 0x40, "HUC6280": 0x80, "4510": 0x200}
    whole = {
        "NONE": 1, "6502": 2, "6502X": 6, "65SC02": 0xA, "65C02": 0x1A, "65816": 0x2A, "SWEET16": 0x40, "HUC6280": 0x9A, "4510": 0x21A,
    }
    found = {f"CPU_ISET_{name}": it for name, it in sets.items()}
    return {**found, **{f"CPU_{name}": it for name, it in whole.items()}}


def _cpu() -> List[str]:
    return ["; The numbers of processors.", *(f"{name} = ${it:04X}" for name, it in processors().items())]


def _module() -> List[str]:
    return [
        "; The beginning of a driver.", ".ifndef DYN_DRV", "DYN_DRV = 1", ".endif", ".macro module_header begin", ".if DYN_DRV",
        '        .segment "HEADER"', ".else", "        .data", "        .export begin", "begin:", ".endif", ".endmacro",
    ]


TEXTS = {"longbranch": _longbranch, "generic": _generic, "cpu": _cpu, "module": _module}
SCREEN = frozenset(("cbm", "atari", "apple2"))


def text_of(name: str) -> str:
    """Returns the file of a package."""
    return "\n".join(TEXTS[name]()) + "\n"


def screen_code(package: str, code: int) -> int:
    """Returns the screen code of a character's code."""
    if package == "apple2":
        return code + 128 & 255
    if package == "atari":
        low = code & 127
        return (low + 64 if low < 32 else low - 32 if low < 96 else low) | code & 128
    high = (0x8, 0x0, 0x4, 0x2, 0x4, 0xC, 0x8, 0x8)[code >> 5 & 7]
    return high << 4 ^ code
