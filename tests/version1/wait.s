        .export wait
        .import tick
wait:   jsr     tick
        bne     wait
        rts
