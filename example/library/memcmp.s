; Compares X bytes from ptr1 and ptr2 on: zero flag where they are the same.

        .export         memcmp
        .importzp       ptr1, ptr2

.proc memcmp
        ldy     #0
next:   lda     (ptr1),y
        cmp     (ptr2),y
        bne     done
        iny
        dex
        bne     next
done:   rts
.endproc
