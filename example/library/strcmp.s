; Compares the texts at ptr1 and ptr2: zero flag where they are the same.

        .export         strcmp
        .importzp       ptr1, ptr2

.proc strcmp
        ldy     #$FF
next:   iny
        lda     (ptr1),y
        cmp     (ptr2),y
        bne     done
        cmp     #0
        bne     next
done:   rts
.endproc
