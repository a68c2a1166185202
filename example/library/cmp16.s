; Compares A and X with ptr1 as numbers without a sign: carry where they aren't below.

        .export         cmp16
        .importzp       ptr1

.proc cmp16
        cpx     ptr1+1
        bne     done
        cmp     ptr1
done:   rts
.endproc
