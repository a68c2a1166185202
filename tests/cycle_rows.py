"""Sources with the results that work65 must give for them, for workbench_cycles.py. The cycles are
those of the published table of the 6502; addresses, sums and sizes are worked out by hand."""

# The table: operands with their cycles, and the mnemonics that have these forms.
FORMS = """
#1 2, $12 3, $12,x 4, $1234 4, $1234,x 4+, $1234,y 4+, ($12,x) 6, ($12),y 5+ | adc and cmp eor
#1 2, $12 3, $12,x 4, $1234 4, $1234,x 4+, $1234,y 4+, ($12,x) 6, ($12),y 5+ | lda ora sbc
$12 3, $12,x 4, $1234 4, $1234,x 5, $1234,y 5, ($12,x) 6, ($12),y 6 | sta
a 2, $12 5, $12,x 6, $1234 6, $1234,x 7 | asl lsr rol ror
$12 5, $12,x 6, $1234 6, $1234,x 7 | dec inc
#1 2, $12 3, $12,y 4, $1234 4, $1234,y 4+ | ldx
#1 2, $12 3, $12,x 4, $1234 4, $1234,x 4+ | ldy
$12 3, $12,y 4, $1234 4 | stx
$12 3, $12,x 4, $1234 4 | sty
#1 2, $12 3, $1234 4 | cpx cpy
$12 3, $1234 4 | bit
$1234 3, ($1234) 5 | jmp
$1234 6 | jsr
* 2/3 | bcc bcs beq bmi bne bpl bvc bvs
 2 | clc cld cli clv dex dey inx iny nop sec sed sei tax tay tsx txa txs tya
 3 | pha php
 4 | pla plp
 6 | rti rts
 7 | brk
"""
_SCRIPT = """MEMORY {
    ZP:  start = $0010, size = $00F0, file = "";
    RAM: start = $0200, size = $0400, file = "";
    ROM: start = START, size = $4000;
}
SEGMENTS {
    ZEROPAGE: load = ZP,  type = zp;
    BSS:      load = RAM, type = bss;
    CODE:     load = ROM, type = ro;
    RODATA:   load = ROM, type = ro;
}
"""


def script(start: str) -> str:
    """The script with the start of its ROM."""
    return _SCRIPT.replace("START", start)


# From $80F0: `beq` leaves the page, `bne` doesn't. The table begins in a page and ends in the next
# one, `other` begins one.
CROSSING = """        .zeropage
pointer: .res   2
unknown: .res   2
        .code
start:  ldx     #0              ; 80F0
loop:   lda     other,x         ; 80F2
        sta     $0200,x         ; 80F5
        inx                     ; 80F8
        cpx     #4              ; 80F9
        bne     loop            ; 80FB
        beq     after           ; 80FD
        .res    3, $EA          ; 80FF
after:  lda     table,x         ; 8102
        lda     table-1,x       ; 8105
        sta     table,x         ; 8108
        lda     #<table         ; 810B
        sta     pointer         ; 810D
        lda     (pointer),y     ; 810F
        lda     (unknown),y     ; 8111
        rts                     ; 8113
        .res    $81FD - $8114   ; up to 81FC
table:  .byte   1, 2, 3         ; 81FD
        .byte   4               ; 8200
end:    .res    $FF             ; up to 82FF
other:  .byte   1, 2, 3, 4      ; 8300
"""
CYCLES = {
    "80F0": "2", "80F2": "4", "80F5": "5", "80F8": "2", "80F9": "2", "80FB": "2/3", "80FD": "2/4",
    "8102": "4+", "8105": "4+", "8108": "5", "810B": "2", "810D": "3", "810F": "5+", "8111": "5+",
    "8113": "6",
}
CROSSED = """a.s:11: beq after: from 80FF to 8102
a.s:13: lda table,x: reads 81FD to 8200
a.s:14: lda table-1,x: reads 81FC to 8200
a.s:18: lda (pointer),y: reads 81FD to 8200
crossings: 1 by branches, 3 by tables; reads through pointers to unknown tables: 1
"""
# From $8000: a read in a .proc that sets its pointer has only that table, another read has both;
# only `far` crosses a page.
POINTERS = """        .zeropage
pointer: .res   2
        .code
.proc first
        lda     #<near
        sta     pointer
        lda     (pointer),y
.endproc
.proc second
        ldx     #<far
        ldy     #>far
        stx     pointer
.endproc
        lda     (pointer),y
near:   .byte   1, 2
        .res    $80FF - $8010   ; from 8010 on
far:    .byte   1, 2
"""
NO_LABEL = "Error: samepage: no branch, label or known table is on this line"
# A comment on a line, and the message that it causes, if any.
SAMEPAGE = {
    "bne     loop            ; samepage": "",
    "loop:   lda     other,x         ;samepage, since": "a.s:6: Error: samepage: "
    "lda other,x: lies from 80F2 to 8101; bytes to move: 14 on or 2 back",
    "other:  .byte   1, 2, 3, 4      ; samepage": "",
    "beq     after           ; samepage": "a.s:11: Error: samepage: "
    "beq after: from 80FF to 8102; bytes to move: 1 on or 3 back",
    "table:  .byte   1, 2, 3         ; SamePage": "a.s:22: Error: samepage: "
    ".byte 1, 2, 3: lies from 81FD to 8200; bytes to move: 3 on or 1 back",
    "lda     table-1,x       ; samepage": "a.s:14: Error: samepage: "
    "lda table-1,x: reads 81FC to 8200; bytes to move: 4 on or 1 back",
    "inx                     ; samepage": f"a.s:8: {NO_LABEL}",
    "lda     (unknown),y     ; samepage": f"a.s:19: {NO_LABEL}",
    "inx                     ; not samepage": "",
    "inx                     ; 80F8\n; samepage": f"a.s:9: {NO_LABEL}",
}
# The lines of a .proc, and the sum that its listing has.
SUMS = {
    "lda #1\nsta $0200\nrts": "12 cycles",  # 2 + 4 + 6
    "lda $0280,x\nadc ($12),y\nrts": "15 to 17 cycles",  # 4 or 5, 5 or 6, and 6
    "lda $0200,x\nrts": "10 cycles",
    "jsr $1234\njmp $1234": "9 cycles",
    "jmp ($1234)": "5 cycles",
    "lda #1\nnop": "4 cycles",
    "beq there\nlda $12\nthere: rts": "9 to 11 cycles",  # 3 + 6, or 2 + 3 + 6
    "beq there\nlda #1\nrts\nthere: lda $1234,x\nrts": "10 to 14 cycles",  # 2 + 2 + 6, or 3 + 5 + 6
    "bne *+3\nrts": "3 to 8 cycles",  # 3 and out of the .proc, or 2 + 6
    "jmp there\n.byte 1\nthere: rts": "9 cycles",
    "lda #1\nrts\n.byte 1, 2, 3": "8 cycles",
    "ldx #3\nback: dex\nbne back\nrts": "",
    "back: jmp back": "",
    "lda #1\n.byte $2C\nlda #2\nrts": "",
    "beq *+3\nlda #2\nrts": "",
    ".byte 1\nrts": "",
}
UNUSED = {
    "main.s": """        .import used, helper
        .importzp pointer
        .export start, spare
        .code
start:  jsr     used            ; the first instruction: 3 + 3 + 3 bytes
        jsr     falls
        jmp     (pointer)
.proc old                       ; 2 + 1 + 2 + 3 + 1 bytes, only `older` refers to it
        ldx     #2
:       dex
        bne     :-
        jsr     helper
        rts
.endproc
.proc older                     ; 3 + 3 bytes
        jsr     old
@own:   jmp     @own
.endproc
        .addr   kept            ; outside of the .proc, so it counts
.proc falls                     ; runs on into `next`, and is called
        lda     table - 1,x
        lda     SPEED
.endproc
next:   lda     #5
        pha
        rts
        .rodata
table:  .byte   1, 2, 3
.proc unseen                    ; 2 + 2 bytes
        .byte   1, 2
more:   .byte   3, 4
.endproc
handlers:
        .addr   handled
        .code
handled: rts                    ; only a table refers to it, and nothing to the table
kept:   rts
        .bss
SPEED = there + 1
there:  .res    2
spare:  .res    5
        .zeropage
lost:   .res    2
""",
    "lib/a.s": """        .export used
        .exportzp pointer
used:   rts
        .zeropage
pointer: .res 2
""",
    "lib/b.s": """        .export helper, other
helper: nop
        rts
other:  nop
        rts
""",
}
UNUSED_TEXT = """EXPORT THAT NO MODULE IMPORTS      module
start                              main.o
spare                              main.o
other                          l.lib(b.o)

NOT REFERRED TO       kind  size   segment      module
older            procedure     6      CODE      main.o
spare             variable     5       BSS      main.o
unseen           procedure     4    RODATA      main.o
lost              variable     2  ZEROPAGE      main.o
other                label     2      CODE  l.lib(b.o)
handlers             label     2    RODATA      main.o

REFERRED TO ONLY BY THESE       kind  size  segment      module
old                        procedure     9     CODE      main.o
helper                         label     2     CODE  l.lib(b.o)
handled                        label     1     CODE      main.o

MEMBER NEEDED ONLY BY THESE  size
l.lib(b.o)                      4

33 bytes aren't referred to: CODE 20, BSS 5, RODATA 6, ZEROPAGE 2
main.s:7: not seen: where this leads: jmp (pointer)
main.s:26: not seen: where this leads: rts
"""
BANKS = """MEMORY {
    ONE:   start = $8000, size = $4000; # bank 1: pictures
    TWO:   start = $8000,  # bank $02
           size = $4000;   # at the same addresses
    FIXED: start = $C000, size = $2000;
    HIGH:  start = $E000, size = $2000; # bank 3
}
SEGMENTS {
    CODE1: load = ONE;
    CODE2: load = TWO;
    FIXED: load = FIXED;
    HIGH:  load = HIGH;
}
"""
BANKED = """        .segment "CODE2"
other:  .res    $1B
.scope copied
same:   rts                     ; 801B
.endscope
two:    jmp     one             ; reported
        .segment "CODE1"
one:    jsr     two             ; reported
        jsr     fixed
        jmp     high
        jsr     one
        jmp     copied::same    ; the own bank has this name at this address
        .addr   one, two, two - other
        .byte   <two, >one, 5
        lda     two             ; only jsr, jmp and tables are
.scope common
same:   rts                     ; 801B
.endscope
        .segment "FIXED"
fixed:  jsr     one
        jsr     two
        .segment "HIGH"
high:   jsr     two
"""
BANKED_TEXT = """a.s:6: jmp one: in bank 2, one in bank 1 (8000, a.o)
a.s:8: jsr two: in bank 1, two in bank 2 (801C, a.o)
a.s:13: .addr one, two, two - other: in bank 1, two in bank 2 (801C, a.o)
a.s:14: .byte <two, >one, 5: in bank 1, two in bank 2 (801C, a.o)
"""

ENEMIES = """.export move_enemy
.proc move_enemy
        lda     #1
        rts
.proc inner
        rts
.endproc
.endproc
"""
MAIN = """.import move_enemy
        .zeropage
count:  .res    1
        .code
        jsr     move_enemy
        jmp     *
        .byte   1, 2, 3
"""
CHANGED = {
    "enemies.s": ENEMIES.replace("#1", "#1\n        .res    15, $EA"),
    "main.s": """.import move_enemy
        .zeropage
count:  .res    2
        .code
        jsr     move_enemy
        rts
        nop
        .byte   1
""",
}
CHANGES = """AREA  before  now  change
ZP         1    2      +1
ROM       13   25     +12

SEGMENT   before  now  change
ZEROPAGE       1    2      +1
CODE          13   25     +12

MODULE     before  now  change
main.o         10    8      -2
enemies.o       4   19     +15

PROCEDURE             before  now  change
enemies.o move_enemy       4   19     +15

ROM +12 bytes: enemies.s move_enemy +15, main.s -3; ZP +1 byte: main.s +1
"""
# A straight routine for the simulator: its sum is least with X and Y = 0, greatest with 255.
STRAIGHT = """        lda     page - 1,x
        adc     page + 2,y
        pha
        lda     #<page
        sta     pointer
        lda     #>page
        sta     pointer + 1
        lda     (pointer),y
        sta     $0400,x
        inc     $0400,x
        asl     a
        rol     pointer
        dec     count,x
        cmp     (pointer - 1 + 1,x)
        ldx     page + 1,y
        jsr     over
over:   pla
        pla
        bit     $0400
        jmp     next
next:   php
        plp
        pla
        clc
        nop
        rts
"""
SIMULATED = """        .segment "HEADER"
        .byte   "sim65", 2, 0, 0
        .addr   start, start
        .zeropage
pointer: .res   2
count:  .res    1
        .code
start:  ldx     #INDEX
        ldy     #INDEX
        jsr     routine
        lda     #0
        jmp     $FFF9
.proc routine
BODY
.endproc
        .segment "TABLE"
page:   .res    1
"""
SIMULATOR = """MEMORY {
    HEADER: start = $0000, size = $000C;
    ZP:     start = $0010, size = $00E0, file = "";
    RAM:    start = $0600, size = $0400, fill = yes;
}
SEGMENTS {
    HEADER:   load = HEADER;
    ZEROPAGE: load = ZP, type = zp;
    CODE:     load = RAM;
    TABLE:    load = RAM, start = $06FF;
}
"""
# Parts of a large program.
LARGE_HEAD = """ .zeropage
pointer: .res 2
 .bss
buffer: .res 8
 .rodata
table: .byte 1,2,3,4,5
 .code
"""
LARGE_BLOCK = """.proc qNUMBER
pNUMBER:  ldx #4
@on: lda table,x
 sta buffer,x
 dex
 bne @on
 lda #<table
 sta pointer
 lda (pointer),y
 beq pNUMBER
 rts
.endproc
 jsr qNUMBER
"""
