# Each processor writes 1 to its own word, and halts with what it reads in its neighbour's. Not all of them can read 0.
 addi a7, x0, 3                 # call 3: how many processors there are
 ecall
 addi t0, a0, -1
 addi a7, x0, 2                 # call 2: the processor's own number
 ecall
 lui s2, 0x80000                # the address of shared word 0
 slli t1, a0, 2
 add t1, t1, s2
 addi t2, x0, 1
 sw t2, 0(t1)                   # its own word
 addi t3, a0, 1
 and t3, t3, t0
 slli t3, t3, 2
 add t3, t3, s2
 lw a0, 0(t3)                   # the next one's; for the last processor the first one's
 addi a7, x0, 0                 # call 0: halt
 ecall
