; What makes a file that the Atari loads of a program: a mark, the block's first and last address before it, and after it
; a block of two bytes with the address at which it starts.
        .import __PROGRAM_START__, __PROGRAM_LAST__, start
RUNAD = $02E0

.segment "MARK"
        .word   $FFFF

.segment "FROM_TO"
        .addr   __PROGRAM_START__, __PROGRAM_LAST__ - 1

.segment "RUN"
        .addr   RUNAD, RUNAD + 1
        .addr   start
