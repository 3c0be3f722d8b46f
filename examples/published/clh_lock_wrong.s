# The lock of Craig and of Magnusson, Landin and Hagersten, wrong: a processor uses its own node again, and does not take over the one
# before.
#
# It is clh_lock.s without the line that takes it over. The processor after it may not have seen yet that it has left, and then waits for
# the next time. If there is none, the processor finds its own node in word 1, and waits for itself.
# Question: how many processors does it take? One: there is no result at all. On two, from 28 of 118 states no end can be reached.
 addi a7, x0, 2                 # call 2: the processor's own number
 ecall
 addi t0, a0, 1
 slli s3, t0, 2                 # its node
 lui s2, 0x80000                # the address of shared word 0
 addi s4, x0, 2                 # how often it is inside
 addi s5, x0, 1
 addi s6, s2, 4
again: add t0, s2, s3
 sw s5, 16(t0)
 amoswap.w t1, s3, (s6)         # the node before
 add t2, s2, t1
wait: lw t3, 16(t2)
 bne t3, x0, wait
 lw t3, 0(s2)
 addi t3, t3, 1
 sw t3, 0(s2)
 sw x0, 16(t0)                  # wrong: it keeps its node
 addi s4, s4, -1
 bne s4, x0, again
 addi a7, x0, 0                 # call 0: halt
 addi a0, x0, 0
 ecall
