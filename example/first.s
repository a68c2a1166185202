; A first source: the bytes of `lda #0`, two instructions, and a table of words that ends in its last index.
lda_immediate = $A9

start:  .byte   lda_immediate, 0
        tax
        rts
table:  .word   $1234, 0FFh, end - table - 1
end:
        .assert end - start = 10, error, "the source has ten bytes"
