# The barrier of barrier.s, used once. Word 0 counts the processors that have arrived, word 1 the additions, and word 2 how often all
# arrived. The last to arrive resets the count, and only then lets the others go. A processor stops at the ebreak if it misses an addition
# that was made before the barrier.
# Question: can a processor go on before all have arrived? On 64 processors there is one result: all halt with 00, word 1 is 64 (00000040),
# and word 2 is 1. So none can.
 addi a7, x0, 3                 # call 3: how many processors there are
 ecall
 addi s1, a0, 0
 lui s2, 0x80000                # the address of shared word 0
 addi s5, x0, 1
 addi s6, s2, 4
 addi s7, s2, 8
 amoadd.w x0, s5, (s6)
 lw t0, 0(s7)                   # how often all have arrived, before this processor is counted
 amoadd.w t1, s5, (s2)
 addi t1, t1, 1
 bne t1, s1, wait
 sw x0, 0(s2)
 amoadd.w x0, s5, (s7)
 jal x0, passed
wait: lw t1, 0(s7)
 beq t1, t0, wait
passed: lw t1, 0(s6)
 bltu t1, s1, bad
 addi a7, x0, 0                 # call 0: halt
 addi a0, x0, 0
 ecall
bad: ebreak
