; Carry where A is a small letter.

        .export         islower

.proc islower
        cmp     #'a'
        bcc     no
        cmp     #'z'+1
        bcs     outside
        sec
        rts
outside:
        clc
no:     rts
.endproc
