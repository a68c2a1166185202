; The larger one of A and X and of ptr1.

        .export         max16
        .import         cmp16
        .importzp       ptr1

.proc max16
        jsr     cmp16
        bcs     done
        lda     ptr1
        ldx     ptr1+1
done:   rts
.endproc
