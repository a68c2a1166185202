        .export colour, table_end
        .import table
colour = 6
table_end = table + 9
.rodata
        .align  4
        .byte   "END", 0
