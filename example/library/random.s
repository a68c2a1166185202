; The next random number in A and X, by a register of 16 bits that is fed back.

        .export         random
        .import         seed

.proc random
        lsr     seed+1
        ror     seed
        bcc     :+
        lda     seed+1
        eor     #$B4
        sta     seed+1
:       lda     seed
        ldx     seed+1
        rts
.endproc
