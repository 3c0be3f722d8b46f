# A wrong barrier, used once: a processor waits for all but one. Word 0 counts the processors that have arrived, word 1 the additions.
# A processor stops at the ebreak if it misses an addition that was made before the barrier.
# Question: how many processors can go on too early? On 64 processors there are 64 results: in them 0 to 63 processors stop by fault 8,
# and the others halt with 00. Words 0 and 1 are 64 (00000040) in each. So all can but the last to arrive.
 addi a7, x0, 3                 # call 3: how many processors there are
 ecall
 addi s1, a0, 0
 addi s3, a0, -1                # wrong: it does not wait for one of them
 lui s2, 0x80000                # the address of shared word 0
 addi s5, x0, 1
 addi s6, s2, 4
 amoadd.w x0, s5, (s6)
 amoadd.w x0, s5, (s2)
wait: lw t1, 0(s2)
 bltu t1, s3, wait
 lw t1, 0(s6)
 bltu t1, s1, bad
 addi a7, x0, 0                 # call 0: halt
 addi a0, x0, 0
 ecall
bad: ebreak
