; The first controller: which buttons are held, and which were pressed since the reading before.

        .export         read_controller
        .exportzp       held, pressed
        .exportzp       button_a, button_b, button_up, button_down, button_left, button_right

port            = $4016

; The buttons come in this order, the first of them in the highest bit.
button_a        = 1 << 7
button_b        = 1 << 6
button_select   = 1 << 5
button_start    = 1 << 4
button_up       = 1 << 3
button_down     = 1 << 2
button_left     = 1 << 1
button_right    = 1 << 0

directions      = button_up .bitor button_down .bitor button_left .bitor button_right
        .assert directions = $0F, error, "the directions aren't the lowest four bits"
        .assert button_a ^ button_b ^ button_select ^ button_start = directions << 4, error

.zeropage
held:           .res    1
pressed:        .res    1

; Variables that only this file sees.
.scope reading
before:         .res    1               ; what was held at the reading before
once:           .res    1               ; the first of two equal readings
.endscope

.code
; Reads until two readings agree, since the sound unit may take a bit away from one. Overwrites A, X.
.proc read_controller
        .pushseg
        .rodata
.proc opposite
        .byte   button_up | button_down, button_left | button_right
end:
.endproc
        .popseg

        lda     held
        sta     reading::before
        jsr     read
again:  lda     held
        sta     reading::once
        jsr     read
        lda     held
        cmp     reading::once
        bne     again

; A direction and its opposite cancel each other: worn controllers give both.
        ldx     #opposite::end - opposite - 1
@pair:  lda     opposite,x
        and     held
        cmp     opposite,x
        bne     @next
        eor     held
        sta     held
@next:  dex
        bpl     @pair

        lda     reading::before
        eor     #$FF
        and     held
        sta     pressed
        rts

; One reading. The 1 that is put in first comes out when eight bits have followed it.
read:   lda     #1
        sta     held
        sta     port
        lsr     a
        sta     port
@bit:   lda     port
        lsr
        rol     held
        bcc     @bit
        rts
.endproc
