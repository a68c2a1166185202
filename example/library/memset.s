; X bytes A from ptr1 on; 256 where X is 0.

        .export         memset
        .importzp       ptr1

.proc memset
        ldy     #0
next:   sta     (ptr1),y
        iny
        dex
        bne     next
        rts
.endproc
