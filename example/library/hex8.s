; The two hexadecimal digits of A, the high one in X and the low one in A.

        .export         hex8
        .import         digits

.proc hex8
        pha
        lsr     a
        lsr     a
        lsr     a
        lsr     a
        tay
        ldx     digits,y
        pla
        and     #$0F
        tay
        lda     digits,y
        rts
.endproc
