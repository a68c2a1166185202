; Carry where A is a decimal digit.

        .export         isdigit

.proc isdigit
        cmp     #'0'
        bcc     no
        cmp     #'9'+1
        bcs     outside
        sec
        rts
outside:
        clc
no:     rts
.endproc
