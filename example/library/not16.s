; All bits of A and X turned.

        .export         not16

.proc not16
        eor     #$FF
        pha
        txa
        eor     #$FF
        tax
        pla
        rts
.endproc
