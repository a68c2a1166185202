; The main source, as a user of cc65 writes it.
.feature labels_without_colons
.macpack longbranch
.include "game.inc"
.import print, random
.importzp seed

.segment "HEAD"
        .addr   start

.zeropage
actor   .res    2

.bss
actors  .res    ACTORS * .sizeof(Actor)

.code
start   lda     #<actors
        sta     actor
        lda     #>actors
        sta     actor + 1
        ldx     #ACTORS - 1
@next   jsr     random
        jsr     move
        dex
        jpl     @next
        lda     at_column(3)
        jne     start
        lda     #<hello
        ldx     #>hello
        jsr     print
        rts

.proc move
        ldy     #Actor::kind
        lda     (actor),y
        cmp     #Kind::PADDLE
        beq     done
        ldy     #Actor::xpos
        lda     seed
        sta     (actor),y
done    rts
.endproc

.rodata
hello   .byte   "hello", 0
sizes   .byte   .sizeof(Actor), .sizeof(move), .strlen("hello")

.segment "LEVELS"
.repeat 4, i
        .byte   i, ACTORS * i
.endrepeat
