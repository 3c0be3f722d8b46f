# A text with faults of each kind.
start:  addi a7, x0, 2
        ecall
        add  a0, a1, x32
        lw   a0, 4(sp
        mv   a0, a1
        addi a0, a0, 2048
loop:   jal  x0, lop
        lui  a0, 0x12345678
loop:   ebreak
        .zero 65536
