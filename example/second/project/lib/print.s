.include "../game.inc"
.export print
.exportzp text

.zeropage
text:   .res    2

.code
print:  sta     text
        stx     text + 1
        ldy     #0
:       lda     (text),y
        beq     :+
        sta     at_column(0),y
        iny
        bne     :-
:       rts
