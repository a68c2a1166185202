; The smaller one of A and X and of ptr1.

        .export         min16
        .import         cmp16
        .importzp       ptr1

.proc min16
        jsr     cmp16
        bcc     done
        lda     ptr1
        ldx     ptr1+1
done:   rts
.endproc
