# A ticket lock. A fetch-and-add on word 0 gives the next ticket, and word 1 is the ticket that is served. Each processor takes the
# lock once, adds 1 to word 2 by a load and a store, and serves the next ticket. On 64 processors there is one result: all halt with 00, and
# words 0 to 2 are 64 (00000040).
 lui s2, 0x80000                # the address of shared word 0
 addi s5, x0, 1
 amoadd.w t0, s5, (s2)
wait: lw t1, 4(s2)
 bne t1, t0, wait
 lw t2, 8(s2)
 addi t2, t2, 1
 sw t2, 8(s2)
 addi t1, t1, 1
 sw t1, 4(s2)
 addi a7, x0, 0                 # call 0: halt
 addi a0, x0, 0
 ecall
