; An NES cartridge: a sprite that the first controller moves, before a text. This file has the header, what runs at
; power-on, the handlers of interrupts, the palette and the text; controller.s reads the buttons, player.s moves.

        .import         read_controller, player_begin, player_step
        .import         oam
        .export         reset
        .globalzp       frames

; Registers of the PPU, of the sound unit, and the one that copies a page into the sprites' memory.
.scope ppu
        control       = $2000
        mask          = $2001
        status        = $2002
        oam_address   = $2003
        scroll        = $2005
        address       = $2006
        data          = $2007
        oam_copy      = $4014

        palettes      = $3F00
        names         = $2000
        row           = 32              ; names in a row
        rows          = 30
        attributes    = 64              ; bytes after the names, one for 4 by 4 of them
.endscope

.scope apu
        dmc           = $4010
        channels      = $4015
        frame         = $4017
        no_interrupt  = %01000000
.endscope

; What is written to ppu::control and ppu::mask while the frame is shown.
.scope show
        control       = interrupt | upper_tiles
        mask          = background | sprites | left_edge

        interrupt     = 1 << 7          ; at the start of each vertical blank
        upper_tiles = 1 << 4         ; the background's tiles are those at $1000
        left_edge     = %00000110
        background    = 1 << 3
        sprites       = 1 << 4
.endscope

stack           = $0100
off_screen      = $FF                   ; a sprite this far down isn't seen

.segment "HEADER"
        program_banks = 2               ; of 16 KiB
        tile_banks = 1               ; of 8 KiB
        mapper        = 0
        mirrored      = 1               ; vertically

        .byte           "NES", $1A
        .byte           program_banks, tile_banks
        .byte           (mapper & $0F) << 4 | mirrored, mapper & $F0
        .res            8, 0

.segment "VECTORS"
        .addr           nmi, reset, irq

.zeropage
frames:         .res    1               ; counted by the vertical blanks
text:           .res    2               ; a pointer
frame_ready:    .res    1               ; 1 once a frame's sprites are in place

.bss
scroll_x:       .res    1
scroll_y:       .res    1
interrupts:     .res    2               ; of other causes, counted and not expected
bss_end:

.rodata
; The 32 colours: four palettes of the background, four of the sprites.
.proc palette
        .byte           $0F, $00, $10, $30
        .byte           $0F, $01, $11, $21
        .byte           $0F, $06, $16, $26
        .byte           $0F, $09, $19, $29
sprites:
        .byte           $0F, $17, $27, $37
        .byte           $0F, $02, $12, $22
        .byte           $0F, $05, $15, $25
        .byte           $0F, $0A, $1A, $2A
end:
.endproc
        .assert         palette::end - palette = 32, error, "a palette has 32 colours"
        .assert         palette::sprites - palette = 16, error

; Lines of text, each with its place among the names: the PPU takes the high byte first.
lines:  .dbyt           ppu::names + 6 * ppu::row + 9
        .asciiz         "MOVE THE BALL"
        .dbyt           ppu::names + 24 * ppu::row + 7
        .asciiz         "BUTTON A IS FASTER"
        .dbyt           0               ; no line is there

.code
; Runs at power-on and at reset: quiet first, then two frames until the PPU listens, then the program.
.proc reset
        sei
        cld
        ldx     #apu::no_interrupt
        stx     apu::frame
        ldx     #<(stack - 1)           ; $FF
        txs
        inx
        stx     ppu::control
        stx     ppu::mask
        stx     apu::dmc
        stx     apu::channels
        bit     ppu::status
:       bit     ppu::status
        bpl     :-

        txa
clear:  sta     z:0,x
        sta     stack,x
        sta     stack + $200,x
        sta     stack + $300,x
        sta     stack + $400,x
        sta     stack + $500,x
        sta     stack + $600,x
        inx
        bne     clear
        lda     #off_screen
:       sta     oam,x
        inx
        bne     :-

:       bit     ppu::status
        bpl     :-
        .assert *-reset < 128, error, "reset is longer than it may be"
        jsr     load_palette
        jsr     clear_names
        jsr     write_lines
        jsr     player_begin
        lda     #show::control
        sta     ppu::control
        lda     #show::mask
        sta     ppu::mask

; One turn for each frame: wait for the end of one, read the buttons, move.
.proc main
        lda     frames
:       cmp     frames
        beq     :-
        jsr     read_controller
        jsr     player_step
        lda     #1
        sta     frame_ready
        jmp     main
.endproc
.endproc

; Writes the colours. Overwrites A, X.
.proc load_palette
        lda     ppu::status             ; the next byte is an address's high one
        lda     #>ppu::palettes
        ldx     #<ppu::palettes
        jsr     set_address
        ldx     #0
@loop:  lda     palette,x
        sta     ppu::data
        inx
        cpx     #palette::end - palette
        bne     @loop
        rts
.endproc

; Fills the first table of names with blanks, and its attributes with 0. Overwrites A, X, Y.
.proc clear_names
        blanks  = ppu::row * ppu::rows  ; 960 names
        pages   = blanks >> 8
        rest    = blanks .mod 256

        lda     #>ppu::names
        ldx     #<ppu::names
        jsr     set_address
        lda     #' '
        ldy     #pages
        ldx     #0
@page:  sta     ppu::data
        dex
        bne     @page
        dey
        bne     @page
        ldx     #rest
@rest:  sta     ppu::data
        dex
        bne     @rest
        txa
        ldx     #ppu::attributes
:       sta     ppu::data
        dex
        bne     :-
        rts
        .assert pages * 256 + rest = 960, error, "the screen has 960 names"
.endproc

; Writes all lines of text. Overwrites A, X, Y, text.
.proc write_lines
        lda     #<lines
        sta     text
        lda     #>lines
        sta     text + 1
        ldy     #0
line:   lda     (text),y
        beq     done
        pha
        jsr     next
        lda     (text),y
        tax
        pla
        jsr     set_address
@write: jsr     next
        lda     (text),y
        beq     end_of_line
        sta     ppu::data
        bne     @write                  ; always
end_of_line:
        jsr     next
        beq     line
        bne     line
done:   rts

; The pointer's next byte.
next:   inc     text
        bne     @same
        inc     text + 1
@same:  rts
.endproc

; Where ppu::data writes next: the high byte in A, the low one in X.
set_address:
        sta     ppu::address
        stx     ppu::address
        rts

; At the start of each vertical blank: the sprites, if they are in place, then the scroll, and the frame is counted.
.proc nmi
        pha
        txa
        pha
        tya
        pha
        bit     ppu::status
        lda     frame_ready
        beq     @scroll
        lda     #0
        sta     ppu::oam_address
        sta     frame_ready
        lda     #>oam
        sta     ppu::oam_copy
@scroll:
        lda     scroll_x
        sta     ppu::scroll
        lda     scroll_y
        sta     ppu::scroll
        inc     frames
        pla
        tay
        pla
        tax
        pla
        rti
.endproc

; Nothing here asks for an interrupt; one that comes all the same is counted.
irq:    inc     interrupts
        bne     :+
        inc     a:interrupts + 1
:       rti

        .assert <oam = 0, error, "the sprites aren't at the start of a page"
        .assert bss_end <= $0800, error, "the variables don't end in memory"
        .assert irq >= $8000 && irq <= $FFF9, error
