; A and X, low and high, plus ptr1.

        .export         add16
        .importzp       ptr1

.proc add16
        clc
        adc     ptr1
        pha
        txa
        adc     ptr1+1
        tax
        pla
        rts
.endproc
