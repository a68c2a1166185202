; The player: a ball of four sprites, with a place and a speed in 1/256 of a dot. It is pulled towards the speed that
; the buttons ask for, and stops at the edges of the screen.

        .export         player_begin, player_step, oam
        .importzp       held, pressed, button_b, button_left, button_up, ball, ball_turns
        .globalzp       frames

; The screen's edges for the upper left corner of a ball of 16 by 16 dots.
left_edge       = 8
right_edge      = 256 - 8 - 16
top_edge        = 16
bottom_edge     = 240 - 16 - 16

sprites         = 4
entry           = 4                     ; bytes of a sprite: its line, tile, attributes, column

.segment "OAM"
oam:            .res    64 * entry

.bss
jumps:          .res    1               ; how often button B put the ball back

.zeropage
; A place or speed has its fraction first.
.scope player
x_place:        .res    2
y_place:        .res    2
x_speed:        .res    2
y_speed:        .res    2
.endscope
wanted:         .res    2               ; the speed that the buttons ask for

.rodata
        .align  32
tables:
; Speeds by the two bits of a direction, 1 for more and 2 for less; the second four with button A held.
.scope speeds
        slow    = $0140
        fast    = 2 * slow
low:    .byte   0, <slow, < -slow, 0
        .byte   0, <fast, < -fast, 0
high:   .byte   0, >slow, > -slow, 0
        .byte   0, >fast, > -fast, 0
.endscope

; By axis; the bytes between belong to no axis.
.scope edges
least:  .byte   left_edge, 0, top_edge
most:   .byte   right_edge, 0, bottom_edge
.endscope

; Each sprite's line, attributes and column; attributes mirror one tile into four corners.
        .align  16, $FF
.scope mirrored
        column  = %01000000
        line    = %10000000
.endscope
corners:
        .byte   <-1, <-1, 8 - 1, 8 - 1
        .byte   0, mirrored::column, mirrored::line, mirrored::column .bitor mirrored::line
        .byte   0, 8, 0, 8
tables_end:
        .assert >tables = >(tables_end - 1), error, "the tables cross a page"
        .assert corners .mod 16 = 0, warning, "the corners aren't aligned"
        .assert button_up = button_left << 2, error, "the buttons of lines aren't two bits above those of columns"

.code
.proc player_begin
        lda     #0
        ldx     #player::y_speed - player::x_place + 1
:       sta     player::x_place,x
        dex
        bpl     :-
        lda     #(left_edge + right_edge) / 2
        sta     player::x_place + 1
        lda     #(top_edge + bottom_edge) / 2
        sta     player::y_place + 1
        jmp     draw
.endproc

; One frame. Overwrites A, X, Y.
.proc player_step
        lda     pressed
        and     #button_b
        beq     :+
        inc     jumps
        jsr     player_begin
:
; Columns: the index of the axis is in X, 0 for columns and 2 for lines.
        ldx     #0
        lda     held
        jsr     axis
        ldx     #player::y_place - player::x_place
        lda     held
        lsr     a
        lsr     a
        jsr     axis
        jsr     draw
        rts
.endproc

; Moves along the axis in X; bit 0 of A asks for more, bit 1 for less.
.proc axis
        and     #button_left | button_left >> 1
        tay
        bit     held                    ; bit 7 is button A
        bpl     @slow
        iny
        iny
        iny
        iny
@slow:  lda     speeds::low,y
        sta     wanted
        lda     speeds::high,y
        sta     wanted + 1

; A quarter of the way to the wanted speed each frame.
        sec
        lda     wanted
        sbc     player::x_speed,x
        sta     wanted
        lda     wanted + 1
        sbc     player::x_speed + 1,x
        ldy     #2
@half:  cmp     #$80                    ; the sign goes into the carry
        ror     a
        ror     wanted
        dey
        bne     @half
        sta     wanted + 1
        clc
        lda     wanted
        adc     player::x_speed,x
        sta     player::x_speed,x
        lda     wanted + 1
        adc     player::x_speed + 1,x
        sta     player::x_speed + 1,x

        clc
        lda     player::x_place,x
        adc     player::x_speed,x
        sta     player::x_place,x
        lda     player::x_place + 1,x
        adc     player::x_speed + 1,x
        cmp     edges::least,x
        bcs     :+
        lda     edges::least,x
        bne     stop                    ; always
:       cmp     edges::most,x
        bcc     place
        lda     edges::most,x
stop:   pha
        lda     #0
        sta     player::x_speed,x
        sta     player::x_speed + 1,x
        pla
place:  sta     player::x_place + 1,x
        rts
.endproc

; Writes the four sprites of the ball into their page.
.proc draw
        ldx     #0
        ldy     #0
@sprite:
        clc
        lda     corners,y
        adc     player::y_place + 1
        sta     a:oam,x
        lda     frames                  ; a tile for 8 frames
        lsr     a
        lsr     a
        lsr     a
        and     #ball_turns - 1
        clc
        adc     #ball
        sta     oam + 1,x
        lda     corners + sprites,y
        sta     oam + 2,x
        clc
        lda     corners + 2 * sprites,y
        adc     player::x_place + 1
        sta     oam + 3,x
        txa
        clc
        adc     #entry
        tax
        iny
        cpy     #sprites
        bne     @sprite
        rts
.endproc
