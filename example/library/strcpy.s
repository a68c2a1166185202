; The text at ptr1 with its 0 to ptr2.

        .export         strcpy
        .importzp       ptr1, ptr2

.proc strcpy
        ldy     #$FF
next:   iny
        lda     (ptr1),y
        sta     (ptr2),y
        bne     next
        rts
.endproc
