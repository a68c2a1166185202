; print_hex: prints the byte in A as two digits.
        .import put
        .export print_hex

.code
print_hex:
        pha
        lsr     a
        lsr     a
        lsr     a
        lsr     a
        jsr     digit
        pla
        and     #$0F
digit:  cmp     #10
        bcc     @put
        adc     #6              ; and 1 of the carry: from 10 to 'A'
@put:   adc     #'0'
        jmp     put
