; A and X exclusive or ptr1, bit by bit.

        .export         xor16
        .importzp       ptr1

.proc xor16
        eor     ptr1
        pha
        txa
        eor     ptr1+1
        tax
        pla
        rts
.endproc
