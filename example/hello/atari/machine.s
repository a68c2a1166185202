; The Atari: a character on the screen.
        .export begin, put
ICCOM = $0342                   ; the command and the length for channel 0
ICBLL = $0348
CIOV  = $E456                   ; carries a command out, keeps no register

.zeropage
kept:   .res    1

.code
begin:  lda     #125            ; clears the screen
put:    sty     kept
        ldx     #11             ; print the character in A
        stx     ICCOM
        ldx     #0
        stx     ICBLL
        stx     ICBLL + 1
        jsr     CIOV
        ldy     kept
        rts
