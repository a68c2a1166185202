; A and X shifted right by Y bits, with the sign from above.

        .export         asr16
        .importzp       tmp1

.proc asr16
        stx     tmp1
        cpy     #0
        beq     done
next:   cpx     #$80
        ror     tmp1
        ror     a
        ldx     tmp1
        dey
        bne     next
done:   ldx     tmp1
        rts
.endproc
