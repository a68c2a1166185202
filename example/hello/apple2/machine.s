; The Apple II: the header of the file, and a character on the screen.
        .import __PROGRAM_START__, __PROGRAM_LAST__
        .export begin, put
length = __PROGRAM_LAST__ - __PROGRAM_START__
COUT = $FDED                    ; prints A, and keeps X and Y
HOME = $FC58                    ; clears the screen

; A number of an AppleSingle file has its high byte first.
.macro  long value
        .byte   0, ^(value), >(value), <(value)
.endmacro

.macro  entry kind, offset, size
        long    kind
        long    offset
        long    size
.endmacro

.segment "HEADER"
        .byte   $00, $05, $16, $00      ; an AppleSingle file
        .byte   $00, $02, $00, $00      ; of version 2
        .res    16, 0
        .dbyt   2                       ; it has two entries:
        entry   1, 58, length           ; the program
        entry   11, 50, 8               ; and what ProDOS wants to know
        .dbyt   $C3                     ; may be read, written, renamed and deleted
        .dbyt   $06                     ; BIN
        long    __PROGRAM_START__       ; which is loaded here

.code
begin:  jmp     HOME

put:    ora     #$80
        jmp     COUT
