# Lamport's bakery, wrong: a processor does not wait for another that is choosing.
#
# It is bakery.s without the loop at `wait`. A processor that is late in storing its number has none yet, so another does not wait for it.
# Then it stores that number, which is as great or smaller, and goes in too.
# Question: can two be inside at once? On two processors, either can stop at the ebreak, or none.
 addi a7, x0, 2                 # call 2: the processor's own number
 ecall
 lui s2, 0x80000                # the address of shared word 0
 slli t0, a0, 2
 add s3, s2, t0                 # its words are 16(s3) and 272(s3)
 addi a7, x0, 3                 # call 3: how many processors there are
 ecall
 slli t0, a0, 2
 add s4, s2, t0                 # where the loops over processors end
 addi s5, x0, 1
 addi s7, x0, -1
 sw s5, 16(s3)                  # it chooses
 addi s6, x0, 0                 # the greatest number so far
 addi t1, s2, 0
look: lw t0, 272(t1)
 bgeu s6, t0, other
 addi s6, t0, 0
other: addi t1, t1, 4
 bne t1, s4, look
 addi s6, s6, 1
 sw s6, 272(s3)
 sw x0, 16(s3)                  # it has chosen
 addi t1, s2, 0
turn: lw t0, 272(t1)           # wrong: that one may be choosing
 beq t0, x0, next
 bltu t0, s6, turn
 bne t0, s6, next
 bltu t1, s3, turn
next: addi t1, t1, 4
 bne t1, s4, turn
 amoadd.w t0, s5, (s2)
 bne t0, x0, bad
 amoadd.w x0, s7, (s2)
 sw x0, 272(s3)
 addi a7, x0, 0                 # call 0: halt
 addi a0, x0, 0
 ecall
bad: ebreak
