; A and X shifted right by Y bits, with zeros from above.

        .export         shr16
        .importzp       tmp1

.proc shr16
        stx     tmp1
        cpy     #0
        beq     done
next:   lsr     tmp1
        ror     a
        dey
        bne     next
done:   ldx     tmp1
        rts
.endproc
