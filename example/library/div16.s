; The quotient of A and X by ptr1.

        .export         div16
        .import         divmod16
        .importzp       ptr2

.proc div16
        jsr     divmod16
        lda     ptr2
        ldx     ptr2+1
        rts
.endproc
