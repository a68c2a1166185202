; The decimal digits of A and X as a text with its 0 in the buffer.

        .export         decimal, buffer
        .import         divmod16, digits
        .importzp       ptr1, ptr2, sreg

buffer_size = 6

.bss
buffer: .res    buffer_size

.code
.proc decimal
        sta     ptr2
        stx     ptr2+1
        ldx     #buffer_size-1
        lda     #0
next:   sta     buffer,x
        dex
        bmi     done
        txa
        pha
        lda     #10
        sta     ptr1
        lda     #0
        sta     ptr1+1
        lda     ptr2
        ldx     ptr2+1
        jsr     divmod16
        pla
        tax
        ldy     sreg
        lda     digits,y
        jmp     next
done:   rts
.endproc
