; Balls: eight balls fall and bounce in a frame, with a line of text. It shows how macros, includes, conditions and
; repeats are used. `-D NTSC` builds it for the other television norm, `-D SILENT` without the sound.

        .include "include/c64.inc"
        .include "include/macros.inc"
        .include "include/c64.inc"      ; says nothing the second time

        .import         clear_screen, draw_frame, write_text, show_number
        .importzp       from, number
        .export         start

BALLS = 8
.ifdef NTSC
LAST_LINE = 250
PER_SECOND = 60
.else
LAST_LINE = 251
PER_SECOND = 50
.endif
GRAVITY = 6000 / (PER_SECOND * PER_SECOND)
LEFT = 26
RIGHT = 238
FLOOR = 224

        .assert BALLS <= 8, error, "the chip has eight sprites"
        .assert GRAVITY > 0, error, "nothing falls"

; The program's two bytes of address and its line of BASIC: 10 SYS 2061.
.segment "LOADADDR"
        .addr   $0801
.segment "EXEHDR"
basic:  .addr   basic_end
        .word   10
        .byte   $9E
    .repeat 4, i
      .if i = 0
        .byte   <('0' + start / 1000)
      .elseif i = 1
        .byte   <('0' + start / 100 .mod 10)
      .elseif i = 2
        .byte   <('0' + start / 10 .mod 10)
      .else
        .byte   <('0' + start .mod 10)
      .endif
    .endrepeat
        .byte   0
basic_end:
        .word   0

.zeropage
frame:  .res    2
bounces: .res   2
counted: .res   1

.bss
position_low:   .res BALLS
position:       .res BALLS
speed_low:      .res BALLS
speed:          .res BALLS
across:         .res BALLS
direction:      .res BALLS

.code
.proc start
        poke    vic::border, BLACK, BLACK
        jsr     clear_screen
        jsr     draw_frame
        mwa     title, from
        ldx     #1
        ldy     #13
        jsr     write_text
        set_word 0, frame
        set_word 0, bounces
    .ifndef SILENT
        jsr     quiet
    .endif
        for_each_ball place
        poke    vic::enabled, %11111111
forever:
        wait_line LAST_LINE
        for_each_ball fall
        for_each_ball show
        add_word frame, 1
        mva     counted
        beq     same
        mva     #0, counted
        jsr     show_bounces
same:   jsr     SCAN_KEYS
        jsr     GET_KEY
        beq     forever
        poke    vic::enabled, 0
        rts
.endproc

; Shows how often a ball has bounced.
.proc show_bounces
        mva     bounces, number
        mva     bounces + 1, number + 1
        ldx     #1
        ldy     #30
        jmp     show_number
.endproc

; Places ball X.
.proc place
        lda     beginnings,x
        sta     position,x
        lda     #0
        sta     position_low,x
        sta     speed_low,x
        sta     speed,x
        lda     columns,x
        sta     across,x
        txa
        and     #1
        sta     direction,x
        lda     shades,x
        sta     vic::sprite_colour,x
        lda     #<(sprite / 64)
        sta     SCREEN + $3F8,x
        rts
.endproc

; Lets ball X fall by a frame, and turns it where it meets the floor or a wall.
.proc fall
        lda     speed_low,x
        clc
        adc     #<(GRAVITY * 16)
        sta     speed_low,x
        lda     speed,x
        adc     #>(GRAVITY * 16)
        sta     speed,x
        lda     position_low,x
        clc
        adc     speed_low,x
        sta     position_low,x
        lda     position,x
        adc     speed,x
        sta     position,x
        cmp     #FLOOR
        bcc     move
        lda     speed,x
        bmi     move
        jsr     bounce
move:   lda     direction,x
        bne     to_left
        inc     across,x
        lda     across,x
        cmp     #RIGHT
        bcc     done
        bcs     turn
to_left:
        dec     across,x
        lda     across,x
        cmp     #LEFT
        bcs     done
turn:   lda     direction,x
        eor     #1
        sta     direction,x
done:   rts
.endproc

; Turns the speed of ball X round, and counts.
.proc bounce
        lda     #FLOOR - 1
        sta     position,x
        lda     #0
        sec
        sbc     speed_low,x
        sta     speed_low,x
        lda     #0
        sbc     speed,x
        sta     speed,x
        push    'x'
        add_word bounces, one, word
        inc     counted
    .ifndef SILENT
        jsr     knock
    .endif
        pull    'x'
        rts
one:    .word   1
.endproc

; Shows ball X: the sprites' coordinates stand in pairs.
.proc show
        push    'x'
        txa
        asl
        tay
        mva     {across,x}, {vic::sprite_x,y}
        mva     {position,x}, {vic::sprite_y,y}
        pull    'x'
        rts
.endproc

.ifndef SILENT
.proc quiet
        poke    sid::volume, $0F
        poke    sid::attack, $09, $00
        rts
.endproc

.proc knock
        poke    sid::frequency, <4000, >4000
        poke    sid::control, $10
        poke    sid::control, $11
        rts
.endproc
.endif

.rodata
beginnings:
    .repeat BALLS, i
        .byte   50 + i * i * 2
    .endrepeat
columns:
    .repeat BALLS, i
        .byte   LEFT + i * ((RIGHT - LEFT) / BALLS)
    .endrepeat
shades: .byte   WHITE, RED, CYAN, PURPLE, GREEN, YELLOW, ORANGE, BROWN
title:  text    "BALLS"

; A ball of 21 rows of three bytes: rows that are the same are repeated.
.segment "SPRITES"
        .align  64
sprite:
.macro row count, left, middle, right
    .repeat count
        .byte   left, middle, right
    .endrepeat
.endmacro
        row     3, 0, 0, 0
        row     1, 0, %00111100, 0
        row     2, 0, %11111111, 0
        row     3, 1, %11111111, %10000000
        row     3, 3, %11111111, %11000000
        row     3, 1, %11111111, %10000000
        row     2, 0, %11111111, 0
        row     1, 0, %00111100, 0
        row     3, 0, 0, 0
        .res    1
        .assert * - sprite = 64, error, "a sprite has 64 bytes"
