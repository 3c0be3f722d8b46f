# Dining philosophers (Dijkstra, Hierarchical Ordering of Sequential Processes, 1971) who take their forks in order (Havender, Avoiding
# Deadlock in Multitasking Systems, 1968).
#
# Processor p needs the forks p and p + 1 (mod n). Fork f is word 4 + f, which is 1 while it is taken. Each takes the fork of the lower
# number first: whoever has the highest fork that is taken waits for none.
# Each philosopher eats once, and adds 1 to word 0. At the end word 0 is n, and all forks are down. There have to be two at least.
 addi a7, x0, 2                 # call 2: the processor's own number
 ecall
 addi s0, a0, 0
 addi a7, x0, 3                 # call 3: how many processors there are
 ecall
 addi s8, a0, -1
 lui s2, 0x80000                # the address of shared word 0
 addi s5, x0, 1
 slli t0, s0, 2
 add s3, s2, t0
 addi s3, s3, 16                # the fork on the left
 addi t0, s0, 1
 and t0, t0, s8
 slli t0, t0, 2
 add s4, s2, t0
 addi s4, s4, 16                # the fork on the right
 bltu s3, s4, first
 addi t0, s3, 0                 # the last philosopher takes the right one first
 addi s3, s4, 0
 addi s4, t0, 0
first: amoswap.w t0, s5, (s3)
 bne t0, x0, first
second: amoswap.w t0, s5, (s4)
 bne t0, x0, second
 amoadd.w x0, s5, (s2)          # eats
 sw x0, 0(s4)
 sw x0, 0(s3)
 addi a7, x0, 0                 # call 0: halt
 addi a0, x0, 0
 ecall
