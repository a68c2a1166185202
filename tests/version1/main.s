; The program whose objects stand beside, as ca65 of version 1 wrote them.
.include "names.inc"
        .import wait, colour, table_end
        .export main, table
        .forceimport helper
.zeropage
pointer: .res   2
.bss
buffer: .res    WIDTH
.code
main:   lda     #<table
        sta     pointer
        lda     #>table
        sta     pointer + 1
        jsr     wait
        lda     (pointer),y
        sta     buffer,x
        jmp     (vector)
.rodata
table:  .word   main, wait, table_end - table
        .byte   <colour, <(colour * 2), WIDTH
vector: .addr   main + 3
.assert buffer < $0400, error, "buffer too high"
.assert colour = 7, warning, "colour isn't 7"
