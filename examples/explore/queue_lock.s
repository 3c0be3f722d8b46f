# A queue with a lock round it, the specification of queue.s. Word 0 counts the items that were put in, and word 1 those that were taken
# out; the items are in the words from 2 on, and word 128 is 1 while the lock is taken. Each processor puts in its own number plus 1, takes
# out an item, and halts with it.
 addi a7, x0, 2                 # call 2: the processor's own number
 ecall
 lui s2, 0x80000                # the address of shared word 0
 addi s5, x0, 1
 addi s6, s2, 512               # the address of the lock
 addi t0, a0, 1                 # the item
put: amoswap.w t1, s5, (s6)
 bne t1, x0, put                # another processor has the lock
 lw t1, 0(s2)
 addi t2, t1, 1
 sw t2, 0(s2)
 slli t1, t1, 2
 add t1, t1, s2
 sw t0, 8(t1)
 sw x0, 0(s6)
take: amoswap.w t1, s5, (s6)
 bne t1, x0, take
 lw t1, 4(s2)
 addi t2, t1, 1
 sw t2, 4(s2)
 slli t1, t1, 2
 add t1, t1, s2
 lw a0, 8(t1)                   # some item is there, since each processor puts one in first
 sw x0, 0(s6)
 addi a7, x0, 0                 # call 0: halt
 ecall
