# Wrong readers and writers: a reader looks for a writer only once.
#
# It is readers_writers.s without the three lines of the second look.
start: addi a7, x0, 2           # call 2: the processor's own number
 ecall
 andi s0, a0, 1                 # 0: it writes
 lui s2, 0x80000                # the address of shared word 0
 addi s3, x0, 5                 # rounds that are left
 addi s5, x0, 1
 addi s6, x0, -1
round: jal ra, read
 bne s0, x0, next
 addi t0, x0, 2
 bgeu t0, s3, next
 jal ra, write
next: addi s3, s3, -1
 bne s3, x0, round
 addi a7, x0, 0                 # call 0: halt
 addi a0, x0, 0
 ecall

read: lw t0, 4(s2)
 bne t0, x0, read
 amoadd.w x0, s5, (s2)          # wrong: since it looked, a writer may have entered and found no reader
 lw t1, 8(s2)
 lw t2, 12(s2)
 bne t1, t2, bad
 amoadd.w x0, s6, (s2)          # one reader fewer
 jalr x0, 0(ra)
bad: ebreak

write: addi t0, s2, 4
enter: amoswap.w t1, s5, (t0)
 bne t1, x0, enter              # another writes
leaving: lw t1, 0(s2)
 bne t1, x0, leaving            # some still read
 lw t2, 8(s2)
 addi t2, t2, 1
 sw t2, 8(s2)
 lw t2, 12(s2)
 addi t2, t2, 1
 sw t2, 12(s2)
 sw x0, 4(s2)
 jalr x0, 0(ra)
