; A and X plus 1.

        .export         inc16

.proc inc16
        clc
        adc     #1
        bcc     done
        inx
done:   rts
.endproc
