; The low word of the product of A and X with ptr1.

        .export         mul16
        .importzp       ptr1, ptr2, sreg

.proc mul16
        sta     ptr2
        stx     ptr2+1
        lda     #0
        sta     sreg
        sta     sreg+1
        ldy     #16
next:   lsr     ptr2+1
        ror     ptr2
        bcc     :+
        clc
        lda     sreg
        adc     ptr1
        sta     sreg
        lda     sreg+1
        adc     ptr1+1
        sta     sreg+1
:       asl     ptr1
        rol     ptr1+1
        dey
        bne     next
        lda     sreg
        ldx     sreg+1
        rts
.endproc
