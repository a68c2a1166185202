; A and X shifted left by Y bits.

        .export         shl16
        .importzp       tmp1

.proc shl16
        stx     tmp1
        cpy     #0
        beq     done
next:   asl     a
        rol     tmp1
        dey
        bne     next
done:   ldx     tmp1
        rts
.endproc
