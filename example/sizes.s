; A program for a cartridge of any size: it clears RAM behind the zero page, and then waits.
        .import __RAM_START__, __RAM_SIZE__

        .zeropage
count:  .res    3

        .bss
last:   .res    1

        .code
start:  ldx     #<__RAM_SIZE__
        lda     #0
clear:  sta     __RAM_START__ - 1,x
        dex
        bne     clear
        sta     last
wait:   jmp     wait

        .segment "VECTORS"
        .addr   wait, start, wait
