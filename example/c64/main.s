; A C64 program that prints a few results through the KERNAL and goes back to BASIC. This file has the address at
; which it is loaded, the line of BASIC that starts it, and what it shows; print.s prints, numbers.s calculates and
; sorts.

        .import         print_text, print_line, print_hex, print_decimal, print_character
        .import         multiply, divide, sort, sieve, checksum
        .importzp       pointer, value, other, result
        .import         flags, flags_size
        .export         start

load_address    = $0801

.scope code
        clear           = $93
        upper_case      = $8E
.endscope

.segment "LOADADDR"
        .addr           basic

; 10 SYS start, the address in four decimal digits.
.segment "EXEHDR"
        token_sys       = $9E
basic:  .addr           behind
        .word           10
        .byte           token_sys
        .byte           <(start / 1000 + '0'), <(start / 100 .mod 10 + '0')
        .byte           <(start / 10 .mod 10 + '0'), <(start .mod 10 + '0')
        .byte           0
behind: .word           0
        .assert         basic = load_address, error, "the line of BASIC isn't where the program is loaded"
        .assert         start >= 1000 && start <= 9999, error, "SYS has room for four digits"

.code
; Prints each part's title and a colon, then what the part prints, each in a line of its own.
.proc start
        lda     #code::clear
        jsr     print_character
        lda     #code::upper_case
        jsr     print_character
        ldx     #0
@part:  stx     part
        lda     titles,x
        ldy     titles + 1,x
        jsr     print_text
        lda     #':'
        jsr     print_character
        lda     #' '
        jsr     print_character
        ldx     part
        lda     parts + 1,x
        pha
        lda     parts,x
        pha
        jsr     call                    ; the part returns here
        jsr     print_line
        ldx     part
        inx
        inx
        cpx     #parts_end - parts
        bne     @part
        rts

; Goes on at the address that its caller put on the stack, and from there back to the caller.
call:   tsx
        lda     stack + 3,x
        sta     target
        lda     stack + 4,x
        sta     target + 1
        pla                             ; our caller's address goes in its place
        sta     stack + 3,x
        pla
        sta     stack + 4,x
        jmp     (target)
.endproc

stack           = $0100

.bss
part:           .res    1               ; twice the number of the part that is printed
target:         .res    2
counter:        .res    1

.code
.proc hello
        .pushseg
        .rodata
title:  .asciiz "GREETING"
text:   .asciiz "HELLO FROM AN ASSEMBLER|IN TWO LINES"
        .popseg

        lda     #<text
        ldy     #>text
        jmp     print_text
.endproc

; Prints 'a*b=product', and the product in hexadecimal.
.proc products
        .pushseg
        .rodata
title:  .asciiz "PRODUCTS"
first:  .byte   12, 99, 255
second: .byte   11, 101, 255
        pairs   = second - first
        .popseg

        ldx     #0
@pair:  stx     counter
        lda     first,x
        jsr     print_byte
        lda     #'*'
        jsr     print_character
        ldx     counter
        lda     second,x
        jsr     print_byte
        lda     #'='
        jsr     print_character
        ldx     counter
        lda     first,x
        sta     value
        lda     second,x
        sta     other
        jsr     multiply
        lda     result
        sta     value
        lda     result + 1
        sta     value + 1
        pha
        jsr     print_decimal
        lda     #'='
        jsr     print_character
        lda     #'$'
        jsr     print_character
        pla
        jsr     print_hex
        lda     result
        jsr     print_hex
        jsr     blank
        ldx     counter
        inx
        cpx     #pairs
        bne     @pair
        rts
.endproc

; The byte in A in decimal; and with a blank after it.
print_byte:
        sta     value
        lda     #0
        sta     value + 1
        jmp     print_decimal

print_entry:
        jsr     print_byte
blank:  lda     #' '
        jmp     print_character

; Prints quotients by 7, each with the remainder after an R.
.proc quotients
        .pushseg
        .rodata
title:  .asciiz "DIVIDED BY 7"
numbers:
        .word   50, 1000, 65535
end:
        .popseg
        divisor = 7

        ldx     #end - numbers - 2
@next:  stx     counter
        lda     numbers,x
        sta     value
        lda     numbers + 1,x
        sta     value + 1
        lda     #divisor
        jsr     divide
        pha
        jsr     print_decimal
        lda     #'R'
        jsr     print_character
        pla
        jsr     print_entry
        ldx     counter
        dex
        dex
        bpl     @next
        rts
.endproc

; Sorts a list and prints it.
.proc sorting
        .pushseg
        .rodata
title:  .asciiz "SORTED"
        .data
list:   .byte   170, 45, 75, 90, 2, 24, 255, 66, 0, 45
end:
        .popseg

        lda     #<list
        sta     pointer
        lda     #>list
        sta     pointer + 1
        lda     #end - list
        jsr     sort
        lda     #0
@next:  sta     counter
        tax
        lda     list,x
        jsr     print_entry
        lda     counter
        clc
        adc     #1
        cmp     #end - list
        bcc     @next
        rts
.endproc

; Prints the primes below 100.
.proc primes
        .pushseg
        .rodata
title:  .asciiz "PRIMES"
        .popseg
        limit   = 100
        .assert limit <= flags_size, error, "the sieve is too small"

        jsr     sieve
        ldx     #2
@try:   stx     counter
        lda     flags,x
        bne     @composite
        txa
        jsr     print_entry
@composite:
        ldx     counter
        inx
        cpx     #limit
        bcc     @try
        rts
.endproc

; Prints a checksum of the BASIC line and of the code after it, up to here.
.proc sums
        .pushseg
        .rodata
title:  .asciiz "CHECKSUM"
        .popseg

        lda     #<basic
        sta     pointer
        lda     #>basic
        sta     pointer + 1
        lda     #<(sums - basic)
        ldx     #>(sums - basic)
        jsr     checksum
        pha
        txa
        jsr     print_hex
        pla
        jmp     print_hex
.endproc

; The parts, in the order in which they are printed.
.rodata
titles: .addr   hello::title, products::title, quotients::title, sorting::title, primes::title, sums::title
parts:  .addr   hello, products, quotients, sorting, primes, sums
parts_end:
        .assert parts_end - parts = parts - titles, error, "each part has a title"
