# A wrong barrier: a processor reads too late which barrier it is at.
#
# It is barrier.s except for one line: word 1 is read after the fetch-and-add that counts the processor, and not before it.
start: addi a7, x0, 2           # call 2: the processor's own number
 ecall
 addi s0, a0, 0
 addi a7, x0, 3                 # call 3: how many processors there are
 ecall
 addi s1, a0, 0
 lui s2, 0x80000                # the address of shared word 0
 addi s3, x0, 10                # rounds that are left
 addi s4, x0, 0                 # the value of word 2 when all have added
 addi s5, x0, 1
round: addi t0, s2, 8
 amoadd.w x0, s5, (t0)
 jal ra, barrier
 add s4, s4, s1
 lw t1, 8(s2)
 bne t1, s4, bad                # all have added, and none has begun another round
 jal ra, barrier
 addi s3, s3, -1
 bne s3, x0, round
 addi a7, x0, 0                 # call 0: halt
 addi a0, x0, 0
 ecall
bad: ebreak

barrier: amoadd.w t1, s5, (s2)
 lw t0, 4(s2)                   # wrong: since it was counted, the others may have arrived and let all go
 addi t1, t1, 1
 bne t1, s1, wait
 sw x0, 0(s2)
 addi t2, s2, 4
 amoadd.w x0, s5, (t2)
 jalr x0, 0(ra)
wait: lw t1, 4(s2)
 beq t1, t0, wait
 jalr x0, 0(ra)
