# A lock by swap. Word 0 is 1 while the lock is taken. A processor swaps a 1 into it until it gets a 0 back, adds 1 to word 1 by a load and
# a store, and sets word 0 to 0.
# Question: can an addition be lost? On 64 processors there is one result: all halt with 00, and word 1 is 64 (00000040). So none can. But
# some schedule never ends: a processor that does not get the lock can swap for ever while its holder takes no turn.
 lui s2, 0x80000                # the address of shared word 0
 addi s5, x0, 1
take: amoswap.w t0, s5, (s2)
 bne t0, x0, take               # another processor has the lock
 lw t1, 4(s2)
 addi t1, t1, 1
 sw t1, 4(s2)
 sw x0, 0(s2)
 addi a7, x0, 0                 # call 0: halt
 addi a0, x0, 0
 ecall
