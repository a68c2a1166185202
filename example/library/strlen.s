; How many bytes stand before the 0 after ptr1, in Y.

        .export         strlen
        .importzp       ptr1

.proc strlen
        ldy     #$FF
next:   iny
        lda     (ptr1),y
        bne     next
        rts
.endproc
