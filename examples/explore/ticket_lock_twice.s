# A ticket lock that each processor takes twice. A fetch-and-add on word 0 gives the next ticket, and word 1 is the ticket that is
# served. Inside, each adds 1 to word 2 by a load and a store.
 lui s2, 0x80000                # the address of shared word 0
 addi s5, x0, 1
 addi s3, x0, 2                 # how often it takes the lock
again: amoadd.w t0, s5, (s2)
wait: lw t1, 4(s2)
 bne t1, t0, wait
 lw t2, 8(s2)
 addi t2, t2, 1
 sw t2, 8(s2)
 addi t1, t1, 1
 sw t1, 4(s2)
 addi s3, s3, -1
 bne s3, x0, again
 addi a7, x0, 0                 # call 0: halt
 addi a0, x0, 0
 ecall
