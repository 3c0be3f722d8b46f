# Two that are too polite: each raises its flag, and takes it back if it sees the other's. Words 0 and 1 are the flags. Inside, each adds 1 to
# word 2 by a load and a store.
 addi a7, x0, 2                 # call 2: the processor's own number
 ecall
 lui s2, 0x80000                # the address of shared word 0
 slli t0, a0, 2
 add s3, s2, t0                 # its own flag
 xori t0, t0, 4
 add s4, s2, t0                 # the other's
 addi s5, x0, 1
again: sw s5, 0(s3)
 lw t1, 0(s4)
 beq t1, x0, inside             # the other's flag is down
 sw x0, 0(s3)                   # after you
 jal x0, again
inside: lw t2, 8(s2)
 addi t2, t2, 1
 sw t2, 8(s2)
 sw x0, 0(s3)
 addi a7, x0, 0                 # call 0: halt
 addi a0, x0, 0
 ecall
