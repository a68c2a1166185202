        .export tick
tick:   dex
        rts
