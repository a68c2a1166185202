"""The table of mnemonics and directives: those of bin65, and others of ca65."""
from typing import FrozenSet, Optional

MNEMONICS = frozenset(
    "adc and asl bcc bcs beq bit bmi bne bpl brk bvc bvs clc cld cli clv cmp cpx cpy dec dex dey eor inc inx iny jmp jsr"
    " lda ldx ldy lsr nop ora pha php pla plp rol ror rti rts sbc sec sed sei sta stx sty tax tay tsx txa txs tya".split()
)
BRANCHES = frozenset("bcc bcs beq bmi bne bpl bvc bvs".split())
UNDOCUMENTED = frozenset("lax sax dcp isc slo rla sre rra anc alr arr axs las tas shx shy ane jam sha".split())
OTHER_PROCESSORS = frozenset(
    "bra phx phy plx ply stz trb tsb wai stp dea ina bgt blt bge ble"
    " brl cop jml jsl mvn mvp pea pei per phb phd phk plb pld rep rtl sep tcd tcs tdc tsc txy tyx wdm xba xce"
    " tas cpa swa tad tda tsa csh csl cla clx cly sax say sxy st0 st1 st2 set tai tam tdd tia tii tin tma tst bsr".split()
) | {f"{word}{bit}" for word in ("rmb", "smb", "bbr", "bbs") for bit in range(8)}
REGISTERS = frozenset("axy")
TARGETS = {
    "apple2": "__APPLE2__", "apple2enh": "__APPLE2ENH__", "atari": "__ATARI__", "atari2600": "__ATARI2600__",
    "atari5200": "__ATARI5200__", "atarixl": "__ATARIXL__", "atmos": "__ATMOS__", "bbc": "__BBC__", "c128": "__C128__",
    "c16": "__C16__", "c64": "__C64__", "cbm510": "__CBM510__", "cbm610": "__CBM610__", "creativision": "__CREATIVISION__",
    "cx16": "__CX16__", "gamate": "__GAMATE__", "geos-apple": "__GEOS_APPLE__", "geos-cbm": "__GEOS_CBM__",
    "lunix": "__LUNIX__", "lynx": "__LYNX__", "nes": "__NES__", "none": "", "osic1p": "__OSIC1P__", "pce": "__PCE__",
    "pet": "__PET__", "plus4": "__PLUS4__", "sim6502": "__SIM6502__", "sim65c02": "__SIM65C02__",
    "supervision": "__SUPERVISION__", "telestrat": "__TELESTRAT__", "vic20": "__VIC20__",
}

COMMODORE = frozenset("c128 c16 c64 cbm510 cbm610 cx16 pet plus4 vic20".split())
SUPERSETS = {
    "plus4": ("__C16__",), "apple2enh": ("__APPLE2__",), "atarixl": ("__ATARI__",), "geos-cbm": ("__GEOS__",), "geos-apple": ("__GEOS__",)}


def defined_by(target: Optional[str]) -> FrozenSet[str]:
    """Returns the names that `-t` defines."""
    if target is None or not TARGETS[target]:
        return frozenset()
    commodore = ("__CBM__",) if target in COMMODORE else ()
    return frozenset((TARGETS[target], *SUPERSETS.get(target, ()), *commodore))


# The operators of bin65 that are words.
PREFIX_WORDS = frozenset((".bitnot", ".lobyte", ".hibyte", ".bankbyte"))
INFIX_WORDS = frozenset((".mod", ".bitand", ".bitxor", ".shl", ".shr", ".bitor", ".and", ".xor", ".or"))
NOT_WORDS = frozenset((".not",))

DATA = frozenset((".byte", ".byt", ".word", ".addr", ".dbyt", ".dword"))
STORAGE = DATA | {".asciiz", ".res", ".align", ".incbin"}
# Directives after which a label without a colon is recognized.
PLACING = STORAGE | {".tag", ".faraddr", ".lobytes", ".hibytes", ".bankbytes"}
SEGMENT_WORDS = frozenset((".code", ".rodata", ".data", ".bss", ".zeropage"))
BARE = SEGMENT_WORDS | {".pushseg", ".popseg", ".endscope", ".endproc", ".p02"}
LISTS = frozenset((".import", ".importzp", ".export", ".exportzp", ".global", ".globalzp", ".forceimport"))
MACRO_BEGINS, MACRO_ENDS = frozenset((".macro", ".mac")), frozenset((".endmacro", ".endmac"))
MACRO_EXITS = frozenset((".exitmacro", ".exitmac"))
SCOPE_BEGINS, SCOPE_ENDS = frozenset((".scope", ".proc")), frozenset((".endscope", ".endproc"))
REPEAT_BEGINS, REPEAT_ENDS = frozenset((".repeat",)), frozenset((".endrepeat", ".endrep"))
TAKEN_CONDITIONS = frozenset((".if", ".ifdef", ".ifndef", ".ifblank", ".ifnblank"))
OTHER_CONDITIONS = frozenset(
    (".ifconst", ".ifnconst", ".ifref", ".ifnref", ".ifreferenced", ".ifp02", ".ifp4510", ".ifp816", ".ifpc02", ".ifpsc02")
)
CONDITIONS = TAKEN_CONDITIONS | OTHER_CONDITIONS
EXPANSION = (
    MACRO_BEGINS | MACRO_ENDS | REPEAT_BEGINS | REPEAT_ENDS | TAKEN_CONDITIONS
    | {".elseif", ".else", ".endif", ".include", ".error", ".end", ".local", ".exitmacro", ".exitmac"}
)
STATEMENTS = STORAGE | BARE | LISTS | {".segment", ".scope", ".proc", ".assert", ".out", ".warning", ".setcpu"}
TAKEN = STATEMENTS | EXPANSION | PREFIX_WORDS | INFIX_WORDS | NOT_WORDS | {".paramcount"}

# The macros that `.macpack NAME` brings.
PACKAGES = {
    "longbranch": frozenset("jeq jne jmi jpl jcs jcc jvs jvc".split()),
    "generic": frozenset("add sub bge blt bgt ble bnz bze".split()),
    "cbm": frozenset(("scrcode", "_scrcode", "scrbyte")),
    "atari": frozenset(("scrcode", "_scrcode")),
    "apple2": frozenset(("scrcode", "_scrcode")),
    "cpu": frozenset(),
    "module": frozenset(("module_header",)),
}
