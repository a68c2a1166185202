.export random
.exportzp seed

.zeropage
seed:   .res    1

.code
random: lda     seed
        asl     a
        bcc     :+
        eor     #$1D
:       sta     seed
        rts
