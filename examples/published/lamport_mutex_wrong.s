# Lamport's fast mutual exclusion, wrong: who leaves sets b[i] to 0 before y, and not after it.
#
# It is lamport_mutex.s except for the order of these two stores. In between, a processor that waits for b[i] can find its own name in y,
# and go in. Then the store to y takes its name away, and another finds y 0, and goes in too.
# Question: can two be inside at once? Two processors that are inside once cannot: word 0 is 2. On four, it can be 4, 3 or 2.
 addi a7, x0, 2                 # call 2: the processor's own number
 ecall
 addi s0, a0, 1                 # i
 lui s2, 0x80000                # the address of shared word 0
 slli t0, a0, 2
 add s3, s2, t0                 # b[i] is 16(s3)
 addi a7, x0, 3                 # call 3: how many processors there are
 ecall
 slli t0, a0, 2
 add s4, s2, t0                 # b ends at 16(s4)
 addi s5, x0, 1
again: sw s5, 16(s3)
 sw s0, 4(s2)
 lw t0, 8(s2)
 beq t0, x0, free
 sw x0, 16(s3)
wait: lw t0, 8(s2)
 bne t0, x0, wait
 jal x0, again
free: sw s0, 8(s2)
 lw t0, 4(s2)
 beq t0, s0, inside             # nobody has come since
 sw x0, 16(s3)
 addi t1, s2, 0
each: lw t0, 16(t1)
 bne t0, x0, each
 addi t1, t1, 4
 bne t1, s4, each
 lw t0, 8(s2)
 bne t0, s0, wait
inside: lw t0, 0(s2)
 addi t0, t0, 1
 sw t0, 0(s2)
 sw x0, 16(s3)                  # wrong: b[i] is 0
 sw x0, 8(s2)                   # before y is
 addi a7, x0, 0                 # call 0: halt
 addi a0, x0, 0
 ecall
