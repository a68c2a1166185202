; A and X without their sign.

        .export         abs16
        .import         neg16

.proc abs16
        cpx     #$80
        bcc     done
        jmp     neg16
done:   rts
.endproc
