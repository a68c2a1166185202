; The hexadecimal digits.

        .export         digits

.rodata
digits: .byte   "0123456789ABCDEF"
