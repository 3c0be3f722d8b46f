# Lamport's fast mutual exclusion (A Fast Mutual Exclusion Algorithm, 1987): a processor that comes alone makes seven references.
#
# Word 1 is Lamport's x, word 2 his y, and word 4 + p is b of processor p, whose number here is i = p + 1. A processor sets b[i] and x. If
# y is 0, it sets y, and if x is then still i, it is inside. If not, others have come since: it waits until no b is set, and then only the
# one whose number is in y goes in. The others begin again when y is 0.
# Each processor is inside once, and adds 1 to word 0 by a load and a store. At the end word 0 is n, and x names any processor.
 addi a7, x0, 2                 # call 2: the processor's own number
 ecall
 addi s0, a0, 1                 # i
 lui s2, 0x80000                # the address of shared word 0
 slli t0, a0, 2
 add s3, s2, t0                 # b[i] is 16(s3)
 addi a7, x0, 3                 # call 3: how many processors there are
 ecall
 slli t0, a0, 2
 add s4, s2, t0                 # b ends at 16(s4)
 addi s5, x0, 1
again: sw s5, 16(s3)
 sw s0, 4(s2)
 lw t0, 8(s2)
 beq t0, x0, free
 sw x0, 16(s3)
wait: lw t0, 8(s2)
 bne t0, x0, wait
 jal x0, again
free: sw s0, 8(s2)
 lw t0, 4(s2)
 beq t0, s0, inside             # nobody has come since
 sw x0, 16(s3)
 addi t1, s2, 0
each: lw t0, 16(t1)
 bne t0, x0, each
 addi t1, t1, 4
 bne t1, s4, each
 lw t0, 8(s2)
 bne t0, s0, wait
inside: lw t0, 0(s2)
 addi t0, t0, 1
 sw t0, 0(s2)
 sw x0, 8(s2)                   # y
 sw x0, 16(s3)                  # and only then b[i]
 addi a7, x0, 0                 # call 0: halt
 addi a0, x0, 0
 ecall
