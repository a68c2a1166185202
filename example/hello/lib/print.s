; print: prints the text at A (low) and X (high), up to a 0.
        .import put
        .export print

.zeropage
text:   .res    2

.code
print:  sta     text
        stx     text + 1
        ldy     #0
@next:  lda     (text),y
        beq     @end
        jsr     put
        iny
        bne     @next
@end:   rts
