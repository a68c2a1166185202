; Fills a text with the decimal digits of random numbers, by a few routines of the library.

        .import         random, mod16, decimal, buffer, strcat, memset
        .importzp       ptr1, ptr2

count   = 8

.bss
text:   .res    6*count+1

.code
.proc main
        lda     #<text
        ldx     #>text
        sta     ptr1
        stx     ptr1+1
        lda     #0
        ldx     #6*count+1
        jsr     memset
        lda     #count
        sta     left
next:   lda     #<1000
        sta     ptr1
        lda     #>1000
        sta     ptr1+1
        jsr     random
        jsr     mod16
        jsr     decimal
        lda     #<buffer
        sta     ptr1
        lda     #>buffer
        sta     ptr1+1
        lda     #<text
        sta     ptr2
        lda     #>text
        sta     ptr2+1
        jsr     strcat
        dec     left
        bne     next
        rts
.endproc

.bss
left:   .res    1
