; The product of A and tmp1 in A and X.

        .export         mul8
        .importzp       tmp1, tmp2

.proc mul8
        sta     tmp2
        lda     #0
        ldx     #8
next:   lsr     tmp2
        bcc     :+
        clc
        adc     tmp1
:       ror     a
        ror     sreg_low
        dex
        bne     next
        tax
        lda     sreg_low
        rts
.endproc

.bss
sreg_low:
        .res    1
