; What the balls program writes on the screen.

        .include "include/c64.inc"
        .include "include/macros.inc"

        .export         clear_screen, draw_frame, write_text, show_number
        .exportzp       from, number

.zeropage
from:   .res    2
to:     .res    2
number: .res    2

.code
; Clears the screen, a page at a time.
.proc clear_screen
        lda     #' '
        ldx     #0
@next:
    .repeat 4, page
      .if page < 3
        sta     SCREEN + page * 256,x
      .else
        sta     SCREEN + ROWS * COLUMNS - 256,x
      .endif
    .endrepeat
        inx
        bne     @next
        rts
.endproc

; Draws the frame: the top and the bottom, then the sides, row by row.
.proc draw_frame
        lda     #$A0
        ldx     #COLUMNS - 1
@top:
    .repeat 2, edge
        sta     SCREEN + edge * (ROWS - 1) * COLUMNS,x
    .endrepeat
        dex
        bpl     @top
        ldx     #ROWS - 1
@side:  jsr     to_row
        lda     #$A0
        ldy     #0
        sta     (to),y
        ldy     #COLUMNS - 1
        sta     (to),y
        dex
        bpl     @side
        rts
.endproc

; to = the address of row X.
.proc to_row
        mva     {rows_low,x}, to
        mva     {rows_high,x}, to + 1
        rts
.endproc

; Writes the text at `from`, which begins with its length, in row X from column Y on.
.proc write_text
        jsr     to_row
        tya
        clc
        adc     to
        sta     to
        bcc     :+
        inc     to + 1
:       ldy     #0
        mva     {(from),y}
        tax
        add_word from, 1
@next:  mva     {(from),y}
        and     #%00111111
        sta     (to),y
        iny
        dex
        bne     @next
        rts
.endproc

; Writes `number` in row X from column Y on, in five digits.
.proc show_number
        jsr     to_row
        ldx     #0
@digit: mva     #'0'
        pha
@less:  lda     number
        sec
        sbc     powers_low,x
        sta     rest
        lda     number + 1
        sbc     powers_high,x
        bcc     @write
        sta     number + 1
        mva     rest, number
        pla
        adc     #0
        pha
        jmp     @less
@write: pla
        sta     (to),y
        iny
        inx
        cpx     #5
        bne     @digit
        rts
.endproc

.bss
rest:   .res    1

.rodata
table_of rows_low, rows_high, ROWS, SCREEN, COLUMNS

; The powers of ten, the largest first.
.macro powers which
    .local ten
ten = 10
        .byte   which(10000), which(1000), which(100), which(ten), which(1)
.endmacro
powers_low:     powers <
powers_high:    powers >

; The darker neighbour of each colour; the program that you make of this may fade by it.
darker:
    .repeat COLOUR_COUNT, colour
      .if colour = WHITE
        .byte   YELLOW
      .elseif colour = BLACK
        .byte   BLACK
      .elseif colour & 1
        .byte   colour - 1
      .else
        .byte   BLUE
      .endif
    .endrepeat
