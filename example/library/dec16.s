; A and X minus 1.

        .export         dec16

.proc dec16
        sec
        sbc     #1
        bcs     done
        dex
done:   rts
.endproc
