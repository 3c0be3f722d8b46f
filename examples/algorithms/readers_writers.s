# Readers and writers: readers read side by side, and a writer writes alone.
#
# Word 0 counts the readers, and word 1 is 1 while there is a writer. A reader that sees no writer counts itself, and looks
# again: a writer may have come in between. A writer swaps a 1 into word 1, and waits until the readers have left. Words 2 and 3
# are protected: a writer adds 1 to both, and a reader that sees them differ stops at the ebreak. Each processor reads five
# times, and those with an even number also write in their first three rounds.
start: addi a7, x0, 2           # call 2: the processor's own number
 ecall
 andi s0, a0, 1                 # 0: it writes
 lui s2, 0x80000                # the address of shared word 0
 addi s3, x0, 5                 # rounds that are left
 addi s5, x0, 1
 addi s6, x0, -1
round: jal ra, read
 bne s0, x0, next
 addi t0, x0, 2
 bgeu t0, s3, next
 jal ra, write
next: addi s3, s3, -1
 bne s3, x0, round
 addi a7, x0, 0                 # call 0: halt
 addi a0, x0, 0
 ecall

read: lw t0, 4(s2)
 bne t0, x0, read
 amoadd.w x0, s5, (s2)          # one more reader
 lw t0, 4(s2)                   # the second look
 beq t0, x0, reading
 amoadd.w x0, s6, (s2)
 jal x0, read
reading: lw t1, 8(s2)
 lw t2, 12(s2)
 bne t1, t2, bad
 amoadd.w x0, s6, (s2)          # one reader fewer
 jalr x0, 0(ra)
bad: ebreak

write: addi t0, s2, 4
enter: amoswap.w t1, s5, (t0)
 bne t1, x0, enter              # another writes
leaving: lw t1, 0(s2)
 bne t1, x0, leaving            # some still read
 lw t2, 8(s2)
 addi t2, t2, 1
 sw t2, 8(s2)
 lw t2, 12(s2)
 addi t2, t2, 1
 sw t2, 12(s2)
 sw x0, 4(s2)
 jalr x0, 0(ra)
