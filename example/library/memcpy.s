; X bytes from ptr1 to ptr2; 256 where X is 0.

        .export         memcpy
        .importzp       ptr1, ptr2

.proc memcpy
        ldy     #0
next:   lda     (ptr1),y
        sta     (ptr2),y
        iny
        dex
        bne     next
        rts
.endproc
