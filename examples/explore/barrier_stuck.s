# A wrong barrier, used twice: the last to arrive lets the others go, and only then resets the count. One of them may arrive again in
# between, and be forgotten: then all wait. Word 0 counts the processors that have arrived, word 1 the additions, word 2 how often all have.
 addi a7, x0, 3                 # call 3: how many processors there are
 ecall
 addi s1, a0, 0
 lui s2, 0x80000                # the address of shared word 0
 addi s3, x0, 2                 # rounds that are left
 addi s5, x0, 1
 addi s6, s2, 4
 addi s7, s2, 8
round: amoadd.w x0, s5, (s6)
 lw t0, 0(s7)                   # how often all have arrived, before this processor is counted
 amoadd.w t1, s5, (s2)
 addi t1, t1, 1
 bne t1, s1, wait
 amoadd.w x0, s5, (s7)          # wrong: the others go
 sw x0, 0(s2)                   # before the count is reset
 jal x0, passed
wait: lw t1, 0(s7)
 beq t1, t0, wait
passed: addi s3, s3, -1
 bne s3, x0, round
 addi a7, x0, 0                 # call 0: halt
 addi a0, x0, 0
 ecall
