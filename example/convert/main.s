; A C64 program that calls report(), a function in C: cc65 compiles it, `work65 convert` converts its object and cc65's library,
; and bin65 links all of them.

        .import _report         ; report.c
        .importzp sp            ; the pointer of C's own stack, in the library
CHROUT = $FFD2
STACK  = $D000                  ; C's stack grows downwards from here
RETURN = 13

.segment "HEAD"
        .word $0801             ; the load address
        .word next, 2026        ; a line of BASIC: 2026 SYS 2061
        .byte $9E, "2061", 0
next:   .word 0

.segment "ZEROPAGE": zeropage
text:   .res 2

.code
        lda #<STACK
        ldx #>STACK
        sta sp
        stx sp + 1
        lda #<title
        ldx #>title
        jsr print
        ldy #7
again:  tya
        pha
        jsr _report             ; the argument is in A, the result in A and X
        jsr print
        pla
        clc
        adc #50
        tay
        bcc again
end:    jmp end                 ; no way back: C's variables are where BASIC's were

; Prints the text at A (low byte) and X (high byte), and a line end.
print:  sta text
        stx text + 1
        ldy #0
each:   lda (text),y
        beq done
        jsr CHROUT
        iny
        bne each
done:   lda #RETURN
        jmp CHROUT

.rodata
title:  .byte "SQUARES, BY C", 0
