; The variables of the library: two pointers, two bytes, and the high word of long values.

        .exportzp       ptr1, ptr2, tmp1, tmp2, sreg

.zeropage
ptr1:   .res    2
ptr2:   .res    2
tmp1:   .res    1
tmp2:   .res    1
sreg:   .res    2
