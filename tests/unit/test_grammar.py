"""Which lines bin65 understands, by the table of statements of docs/LANGUAGE.md; a line that it doesn't has a place where it ends to be one."""
import rows
from work65.frontend.grammar import shape_of, wrong

TAKEN = """
loop: lda #1 ¦ @l: bne @l ¦ : dex ¦ bne :- ¦ n = 1+2 ¦ n := $10 ¦ .byte 1, "AB", 'c' ¦ .byt <n, >n, ^n ¦ .word l, l+1 ¦ .addr l ¦ .dbyt 1 ¦ .dword 1
.asciiz "text" ¦ .res 5 ¦ .res 5, $EA ¦ .align 256 ¦ .align 2, 0 ¦ .incbin "f" ¦ .incbin "f", 1 ¦ .incbin "f", 1, 2 ¦ .segment "S"
.segment "S": zeropage ¦ .code ¦ .rodata ¦ .data ¦ .bss ¦ .zeropage ¦ .pushseg ¦ .popseg ¦ .scope s ¦ .scope ¦ .endscope ¦ .proc p ¦ .endproc
.import a1, b1 ¦ .importzp a1 ¦ .export a1 ¦ .exportzp a1 ¦ .global a1 ¦ .globalzp a1 ¦ .forceimport a1 ¦ .assert 1, error
.assert a1 < b1, warning, "text" ¦ .out "text" ¦ .warning "text" ¦ .setcpu "6502" ¦ .p02 ¦ .macro m ¦ .macro m p1, p2 ¦ .mac m ¦ .endmacro ¦ .endmac
.exitmacro ¦ .exitmac ¦ .local a1, b1 ¦ .repeat 5 ¦ .repeat 5, i ¦ .endrepeat ¦ .endrep ¦ .if 1 ¦ .ifdef n ¦ .ifdef s::n ¦ .ifndef ::n ¦ .ifblank a b
.ifnblank ¦ .elseif 1 ¦ .else ¦ .endif ¦ .include "f" ¦ .error "text" ¦ .end
lda $10 ¦ lda z:$10 ¦ lda a:$10,x ¦ lda ($10,x) ¦ lda ($10),y ¦ jmp ($1234) ¦ asl ¦ asl a ¦ lsr $10 ¦ lda +(1+2)*3 ¦ lda s::n,y ¦ lda ::n ¦ brk
LDA #1 ¦ .BYTE 1 ¦ ldx #.lobyte(n) ¦ lda #!(a1 = 1) ¦ lda #.not a1 ¦ .byte .bitnot 1, 5 .mod 3, 1 .shl 2 ¦ .byte a1 && b1 || c1, a1 .xor b1 ¦ lda *
.word * - 2 ¦ lda #%101 ¦ lda #0ffh ¦ .byte .paramcount ¦ .if a1 <> b1 ¦ nop ; comment ¦ .word (a1+1)*2 ¦ .byte 'a'+1 ¦ lda #<(a1-1) ¦ bne *+2
"""
# A line, and the token that can't be there; the first one is number 0.
REFUSED = {
    ".byte": 0, ".byte 1,": 2, ".byte 1 2": 2, "lda # ": 1, "lda #1 2": 3, "lda (1": 2, "lda (1),x": 5, "lda (1,y)": 4, "lda 1,": 2,
    "brk #1": 1, ".define N 5": 0, ".struct S": 0, ".org $C000": 0, ".set": 0, "n .set 5": 1, "n 5": 1, ".feature f": 0, "lda [1],y": 1,
    ".res": 0, ".res 1,2,3": 4, ".asciiz 1": 1, ".segment S": 1, '.segment "S": 5': 3, ".proc": 0, ".import": 0, ".import a1,": 2,
    ".import a1: zeropage": 2, ".import @a": 1, ".export lda": 1, "a = 1": 0, "x: nop": 0, "lda: nop": 1, ".assert 1": 1,
    ".assert 1, error, 5": 5, ".macro": 0, ".macro m p1,": 3, ".repeat": 0, ".repeat 5, 6": 3, ".if": 0, ".ifdef": 0, ".ifdef @l": 1,
    ".include f": 1, ".else 1": 1, "@1: nop": 0, "lda #'ab": 2, '.out "open': 1, "lda #1_000": 2, "lda #$": 2, "lda f:1": 1, "lda ?": 1,
    "bne :>": 1, "lda 1+": 2, "lda 1+!a1": 3, "lda s::": 2, ".word 1, \"a\"": 3, "lda #\"a\"": 2, "stz $10": 1,
}  # fmt: skip


def shapes(text):
    """The shapes of a line's tokens."""
    return tuple(map(shape_of, rows.tokens_of(text)))


class Grammar(rows.Rows):
    """Lines that bin65 understands, and others."""

    def test_taken(self):
        self.rows(dict.fromkeys(TAKEN.strip().replace("\n", " ¦ ").split(" ¦ ")), lambda text: wrong(shapes(text)))

    def test_refused(self):
        self.rows(REFUSED, lambda text: wrong(shapes(text)))
