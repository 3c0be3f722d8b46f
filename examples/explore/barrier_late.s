# A wrong barrier, used once: a processor reads how often all have arrived only after it is counted. The last to arrive may let them go
# before one of them looks, and that one waits for the next time. Word 0 counts the processors that have arrived, word 1 how often all have.
# Question: can a processor wait for ever? On 64 processors there is one result: all halt with 00, and word 1 is 1. But no end can be
# reached from a state in which the last has let the others go and one of them had not looked before. So it can.
 addi a7, x0, 3                 # call 3: how many processors there are
 ecall
 addi s1, a0, -1
 lui s2, 0x80000                # the address of shared word 0
 addi s5, x0, 1
 addi s6, s2, 4
 amoadd.w t1, s5, (s2)
 bne t1, s1, look
 sw x0, 0(s2)
 amoadd.w x0, s5, (s6)
 jal x0, done
look: lw t0, 0(s6)              # wrong: the processor is counted already
wait: lw t1, 0(s6)
 beq t1, t0, wait
done: addi a7, x0, 0            # call 0: halt
 addi a0, x0, 0
 ecall
