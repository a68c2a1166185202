; A and X minus ptr1, by the sum with its negative.

        .export         sub16
        .import         add16, neg16
        .importzp       ptr1, tmp1, tmp2

.proc sub16
        sta     tmp1
        stx     tmp2
        lda     ptr1
        ldx     ptr1+1
        jsr     neg16
        sta     ptr1
        stx     ptr1+1
        lda     tmp1
        ldx     tmp2
        jmp     add16
.endproc
