# Peterson's lock for two processors: each announces that it wants the lock, and then lets the other go first. Words 0 and 1 say who wants it,
# and word 2 who goes first. Inside, each adds 1 to word 3 by a load and a store.
 addi a7, x0, 2                 # call 2: the processor's own number
 ecall
 lui s2, 0x80000                # the address of shared word 0
 slli t0, a0, 2
 add s3, s2, t0                 # its own word
 xori t0, t0, 4
 add s4, s2, t0                 # the other's
 xori s6, a0, 1                 # the other's number
 addi s5, x0, 1
 sw s5, 0(s3)
 sw s6, 8(s2)
wait: lw t1, 0(s4)
 beq t1, x0, inside             # the other does not want it
 lw t1, 8(s2)
 beq t1, s6, wait               # the other goes first
inside: lw t2, 12(s2)
 addi t2, t2, 1
 sw t2, 12(s2)
 sw x0, 0(s3)
 addi a7, x0, 0                 # call 0: halt
 addi a0, x0, 0
 ecall
