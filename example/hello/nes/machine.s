; The NES: the file's header, the three vectors, tiles of four letters, and a character on the screen.
        .import start
        .export begin, put
PPUCTRL   = $2000
PPUMASK   = $2001
PPUSTATUS = $2002
PPUSCROLL = $2005
PPUADDR   = $2006
PPUDATA   = $2007

.segment "HEADER"
        .byte   "NES", $1A
        .byte   2, 1            ; two banks of 16 KiB of program, one of 8 KiB of tiles
        .byte   1               ; no bank switching
        .res    9, 0

.segment "VECTORS"
        .addr   none, reset, none

.zeropage
column: .res    1

.code
none:   rti
reset:  sei
        cld
        ldx     #$FF
        txs
        jmp     start

begin:  lda     #0
        sta     PPUCTRL
        sta     PPUMASK
        ldx     #2              ; the PPU is awake after two frames
:       bit     PPUSTATUS
        bpl     :-
        dex
        bne     :-
        lda     #>$3F00         ; white on blue
        ldx     #<$3F00
        jsr     go_to
        lda     #$01
        sta     PPUDATA
        lda     #$30
        sta     PPUDATA
        lda     #>$2000         ; an empty screen
        ldx     #<$2000
        jsr     go_to
        lda     #0
        ldy     #4
:       sta     PPUDATA
        inx
        bne     :-
        dey
        bne     :-
        lda     #$0D            ; the greeting stands in the middle
        sta     column
        rts

.code
put:    pha
        lda     #0              ; shows nothing meanwhile
        sta     PPUMASK
        lda     #>$21C0         ; the 15th row
        jsr     at_column
        pla
        sta     PPUDATA
        inc     column
        lda     #>$2000
        ldx     #<$2000
        jsr     go_to
        lda     #0
        sta     PPUSCROLL
        sta     PPUSCROLL
        lda     #%00001010      ; show it
        sta     PPUMASK
        rts

at_column:
        pha
        clc
        lda     #<$21C0
        adc     column
        tax
        pla
go_to:  sta     PPUADDR
        stx     PPUADDR
        rts

.macro  letter one, two, three, four, five, six, seven
        .byte   one, two, three, four, five, six, seven, 0
        .res    8, 0
.endmacro

; A tile has 16 bytes, and each stands in the place of its character.
.segment "TILES"
        .res    'E' * 16, 0
        letter  %11111100, %11000000, %11000000, %11111000, %11000000, %11000000, %11111100
        .res    ('H' - 'E' - 1) * 16, 0
        letter  %11001100, %11001100, %11001100, %11111100, %11001100, %11001100, %11001100
        .res    ('L' - 'H' - 1) * 16, 0
        letter  %11000000, %11000000, %11000000, %11000000, %11000000, %11000000, %11111100
        .res    ('O' - 'L' - 1) * 16, 0
        letter  %01111000, %11001100, %11001100, %11001100, %11001100, %11001100, %01111000
