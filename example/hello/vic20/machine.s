; The VIC-20: where the file is loaded, the line `10 SYS4109` that starts it, and a character on the screen.
        .import start
        .export begin, put
CHROUT = $FFD2                  ; prints A, and keeps X and Y

.segment "ADDRESS"
        .addr   line

.segment "BASIC"
line:   .addr   last
        .word   10
        .byte   $9E, "4109", 0
last:   .word   0
        .assert start = 4109, error, "SYS goes to another address"

.code
begin:  lda     #147            ; clears the screen
put:    jmp     CHROUT
