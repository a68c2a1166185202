; Divides A and X by ptr1: the quotient in ptr2, the remainder in sreg.

        .export         divmod16
        .importzp       ptr1, ptr2, sreg

.proc divmod16
        sta     ptr2
        stx     ptr2+1
        lda     #0
        sta     sreg
        sta     sreg+1
        ldy     #16
next:   asl     ptr2
        rol     ptr2+1
        rol     sreg
        rol     sreg+1
        sec
        lda     sreg
        sbc     ptr1
        tax
        lda     sreg+1
        sbc     ptr1+1
        bcc     :+
        stx     sreg
        sta     sreg+1
        inc     ptr2
:       dey
        bne     next
        rts
.endproc
