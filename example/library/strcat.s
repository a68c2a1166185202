; The text at ptr1 after the one at ptr2.

        .export         strcat
        .import         strlen, strcpy
        .importzp       ptr1, ptr2

.proc strcat
        jsr     exchange
        jsr     strlen
        jsr     exchange
        tya
        clc
        adc     ptr2
        sta     ptr2
        bcc     :+
        inc     ptr2+1
:       jmp     strcpy
.endproc

.proc exchange
        ldx     #1
next:   lda     ptr1,x
        ldy     ptr2,x
        sta     ptr2,x
        sty     ptr1,x
        dex
        bpl     next
        rts
.endproc
