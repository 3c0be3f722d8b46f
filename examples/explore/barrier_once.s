# A wrong barrier: the count is never reset, so a processor that arrives again finds all there, and does not wait. Word 0 counts the
# processors that have arrived, word 1 the additions. A processor stops at the ebreak if it misses an addition that was made before the
# barrier.
 addi a7, x0, 3                 # call 3: how many processors there are
 ecall
 addi s1, a0, 0
 lui s2, 0x80000                # the address of shared word 0
 addi s3, x0, 2                 # rounds that are left
 addi s4, x0, 0                 # the number of additions when all have added
 addi s5, x0, 1
 addi s6, s2, 4
round: amoadd.w x0, s5, (s6)
 add s4, s4, s1
 amoadd.w x0, s5, (s2)
wait: lw t1, 0(s2)
 bltu t1, s1, wait
 lw t1, 0(s6)
 bltu t1, s4, bad
 addi s3, s3, -1
 bne s3, x0, round
 addi a7, x0, 0                 # call 0: halt
 addi a0, x0, 0
 ecall
bad: ebreak
