; Prints through the KERNAL's CHROUT: a character, a text, a line's end, a byte in hexadecimal, a number in decimal.
; All of them overwrite A, X and Y.

        .export         print_character, print_text, print_line, print_hex, print_decimal
        .importzp       pointer, value
        .global         divide

CHROUT          = $FFD2                 ; keeps A, X and Y
return          = 13

.code
print_character:
        jmp     CHROUT

print_line:
        lda     #return
        bne     print_character         ; always

; The text at the address with low byte A and high byte Y, up to a 0. It may be longer than a page; a bar begins a line.
.proc print_text
        sta     pointer
        sty     pointer + 1
        ldy     #0
:       lda     (pointer),y
        beq     :++
        cmp     #'|'
        bne     :+
        lda     #return
:       jsr     CHROUT
        iny
        bne     :--
        inc     pointer + 1
        bne     :--                     ; always
:       rts
.endproc

; The byte in A as two digits.
.proc print_hex
        pha
        lsr     a
        lsr     a
        lsr     a
        lsr     a
        jsr     digit
        pla
        and     #%00001111
digit:  tax
        lda     digits,x
        jmp     CHROUT

        .pushseg
        .rodata
digits: .byte   "0123456789ABCDEF"
        .assert * - digits = 16, error, "there are 16 digits"
        .popseg
.endproc

; The number in value, without leading zeros; value is 0 after it. The digits come lowest first and wait on the stack.
.proc print_decimal
        base    = 10

        ldx     #0
@digit: txa
        pha                             ; how many digits wait
        lda     #base
        jsr     divide
        tay
        pla
        tax
        tya
        ora     #'0'
        pha
        inx
        lda     value
        ora     value + 1
        bne     @digit
@print: pla
        jsr     CHROUT
        dex
        bne     @print
        rts
.endproc
