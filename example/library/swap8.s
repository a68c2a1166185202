; The halves of A exchanged.

        .export         swap8

.proc swap8
        asl     a
        adc     #$80
        rol     a
        asl     a
        adc     #$80
        rol     a
        rts
.endproc
