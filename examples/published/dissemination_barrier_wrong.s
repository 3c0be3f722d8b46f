# A dissemination barrier, wrong: the sense never changes.
#
# It is dissemination_barrier.s without the line that changes it. It holds back all twice. The third time the flags of the first are still
# set, and nobody waits.
# Question: can a processor go on before all have come? On two processors, either can stop at the ebreak, or none.
 addi a7, x0, 2                 # call 2: the processor's own number
 ecall
 addi s0, a0, 0
 addi a7, x0, 3                 # call 3: how many processors there are
 ecall
 addi s1, a0, 0
 addi s8, a0, -1
 lui s2, 0x80000                # the address of shared word 0
 addi s3, x0, 3                 # how often it comes to the barrier
 addi s4, x0, 0                 # the number of additions when all have added
 addi s5, x0, 1
 addi s6, x0, 1                 # the sense
 addi s7, s2, 0                 # the set of flags, 256 bytes from here
again: amoadd.w x0, s5, (s2)
 add s4, s4, s1
 addi t0, x0, 1                 # 2^r
 addi t1, s7, 0                 # the flags of the round
round: bgeu t0, s1, passed
 add t2, s0, t0
 and t2, t2, s8
 slli t2, t2, 2
 add t2, t2, t1
 sw s6, 256(t2)
 slli t2, s0, 2
 add t2, t2, t1
wait: lw t3, 256(t2)
 bne t3, s6, wait
 slli t0, t0, 1
 addi t1, t1, 256
 jal x0, round
passed: lw t0, 0(s2)
 bltu t0, s4, bad
 beq s7, s2, first
 addi s7, s2, 0                # wrong: the sense stays the same
 jal x0, used
first: addi s7, s2, 1536
used: addi s3, s3, -1
 bne s3, x0, again
 addi a7, x0, 0                 # call 0: halt
 addi a0, x0, 0
 ecall
bad: ebreak
