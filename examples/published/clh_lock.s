# The lock of Craig (1993) and of Magnusson, Landin and Hagersten (Queue Locks on Cache Coherent Multiprocessors, 1994): each processor
# waits for the one before it.
#
# A node is a word that is 1 until its owner has left: node j is word 4 + j. Word 1 has four times the number of the last node, at first
# 0, which is free. Processor p begins with node p + 1. It sets its node to 1, swaps its number into word 1, and waits until the node
# before is 0. When it leaves, it sets its own to 0, and takes over the node before, as whoever came after it may still look at its own.
# Each processor is inside twice, and adds 1 to word 0 by a load and a store. At the end word 0 is 2n, and word 1 names any node.
 addi a7, x0, 2                 # call 2: the processor's own number
 ecall
 addi t0, a0, 1
 slli s3, t0, 2                 # its node
 lui s2, 0x80000                # the address of shared word 0
 addi s4, x0, 2                 # how often it is inside
 addi s5, x0, 1
 addi s6, s2, 4
again: add t0, s2, s3
 sw s5, 16(t0)
 amoswap.w t1, s3, (s6)         # the node before
 add t2, s2, t1
wait: lw t3, 16(t2)
 bne t3, x0, wait
 lw t3, 0(s2)
 addi t3, t3, 1
 sw t3, 0(s2)
 sw x0, 16(t0)
 addi s3, t1, 0                 # takes over the node before
 addi s4, s4, -1
 bne s4, x0, again
 addi a7, x0, 0                 # call 0: halt
 addi a0, x0, 0
 ecall
