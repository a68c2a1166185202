; Prints a greeting on any of the machines. What differs between them stands in the machine's folder.
        .import begin, print
        .export start

; The script puts this segment before all other code.
.segment "START"
start:  jsr     begin
        lda     #<greeting
        ldx     #>greeting
        jsr     print
wait:   jmp     wait

.rodata
greeting:
        .asciiz "HELLO"
