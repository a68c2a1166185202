; The negative of A and X.

        .export         neg16

.proc neg16
        clc
        eor     #$FF
        adc     #1
        pha
        txa
        eor     #$FF
        adc     #0
        tax
        pla
        rts
.endproc
