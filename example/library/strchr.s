; Where the byte A stands in the text at ptr1: its place in Y, carry where there is none.

        .export         strchr
        .importzp       ptr1, tmp1

.proc strchr
        sta     tmp1
        ldy     #$FF
next:   iny
        lda     (ptr1),y
        beq     none
        cmp     tmp1
        bne     next
        clc
        rts
none:   sec
        rts
.endproc
