; A and X or ptr1, bit by bit.

        .export         or16
        .importzp       ptr1

.proc or16
        ora     ptr1
        pha
        txa
        ora     ptr1+1
        tax
        pla
        rts
.endproc
