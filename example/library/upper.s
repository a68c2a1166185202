; A as a capital letter where it is a small one.

        .export         upper
        .import         islower

.proc upper
        jsr     islower
        bcc     done
        and     #$DF
done:   rts
.endproc
