        .export helper
helper: rts
