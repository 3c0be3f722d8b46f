# Dining philosophers, wrong: all take the fork on the left first.
#
# It is philosophers.s without the lines that exchange the forks of the last. If each has the left one, each waits for the right one.
# Question: from how many states can no end be reached? From one, on any number of processors.
 addi a7, x0, 2                 # call 2: the processor's own number
 ecall
 addi s0, a0, 0
 addi a7, x0, 3                 # call 3: how many processors there are
 ecall
 addi s8, a0, -1
 lui s2, 0x80000                # the address of shared word 0
 addi s5, x0, 1
 slli t0, s0, 2
 add s3, s2, t0
 addi s3, s3, 16                # the fork on the left
 addi t0, s0, 1
 and t0, t0, s8
 slli t0, t0, 2
 add s4, s2, t0
 addi s4, s4, 16                # the fork on the right
first: amoswap.w t0, s5, (s3)   # wrong: all take the left one first
 bne t0, x0, first
second: amoswap.w t0, s5, (s4)
 bne t0, x0, second
 amoadd.w x0, s5, (s2)          # eats
 sw x0, 0(s4)
 sw x0, 0(s3)
 addi a7, x0, 0                 # call 0: halt
 addi a0, x0, 0
 ecall
