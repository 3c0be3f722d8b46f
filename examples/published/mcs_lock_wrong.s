# The lock of Mellor-Crummey and Scott, wrong: a processor links its node before it marks it, and not after that.
#
# It is mcs_lock.s except for the order of these two stores. In between, the one before it can leave and let it go. Then it marks its
# node, and waits for ever.
# Question: do all get the lock? All that halt have had it, so there is one result; but from 8 states of two processors no end can be
# reached.
 addi a7, x0, 2                 # call 2: the processor's own number
 ecall
 lui s2, 0x80000                # the address of shared word 0
 slli t0, a0, 3
 add s3, s2, t0
 addi s3, s3, 16                # its node
 addi s5, x0, 1
 addi s6, s2, 4
 amoswap.w t0, s3, (s6)
 beq t0, x0, inside
 sw s3, 0(t0)                   # wrong: it is found
 sw s5, 4(s3)                   # before it is to wait
wait: lw t1, 4(s3)
 bne t1, x0, wait
inside: lw t1, 0(s2)
 addi t1, t1, 1
 sw t1, 0(s2)
 lw t1, 0(s3)
 bne t1, x0, pass
 amoswap.w t2, x0, (s6)
 beq t2, s3, done               # nobody has come
 amoswap.w t3, t2, (s6)         # t3: the last of those who came in between
link: lw t1, 0(s3)
 beq t1, x0, link               # the next one has not linked its node yet
 beq t3, x0, pass
 sw t1, 0(t3)
 jal x0, done
pass: sw x0, 4(t1)
done: sw x0, 0(s3)              # its node is as it was
 addi a7, x0, 0                 # call 0: halt
 addi a0, x0, 0
 ecall
