; The remainder of A and X by ptr1.

        .export         mod16
        .import         divmod16
        .importzp       sreg

.proc mod16
        jsr     divmod16
        lda     sreg
        ldx     sreg+1
        rts
.endproc
