; 1, 0 or -1 in A by the sign of A and X.

        .export         sgn16
        .importzp       tmp1

.proc sgn16
        cpx     #$80
        bcs     minus
        stx     tmp1
        ora     tmp1
        beq     done
        lda     #1
done:   rts
minus:  lda     #$FF
        rts
.endproc
