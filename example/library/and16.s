; A and X and ptr1, bit by bit.

        .export         and16
        .importzp       ptr1

.proc and16
        and     ptr1
        pha
        txa
        and     ptr1+1
        tax
        pla
        rts
.endproc
