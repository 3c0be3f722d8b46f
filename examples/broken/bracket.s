start: lw a0, 4(sp
