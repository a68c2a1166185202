.export unused
unused: brk
