# Readers and writers, wrong: a reader that leaves puts back the number of readers that it found when it came.
#
# It is readers_writers.s except for one line, a store in place of a fetch-and-add. Of two readers, the first to leave may take away the
# count of the second: then a writer writes while that one reads. The second may put back a count of one when nobody reads: then a writer
# gives way and tries again, for ever.
# Question: what becomes of four processors? A reader can stop at the ebreak, word 0 can end as 1, and from 11 states no end can be
# reached.
 addi a7, x0, 2                 # call 2: the processor's own number
 ecall
 lui s2, 0x80000                # the address of shared word 0
 addi s5, x0, 1
 addi s6, x0, -1
 addi s7, s2, 4
 andi a0, a0, 1
 beq a0, x0, write
 amoadd.w t1, s5, (s2)          # one more reader
look: lw t0, 4(s2)
 bne t0, x0, look
 lw t2, 8(s2)
 lw t3, 12(s2)
 bne t2, t3, bad
 sw t1, 0(s2)                   # wrong: others may have come or gone
 jal x0, done
write: amoswap.w t0, s5, (s7)
 bne t0, x0, write              # there is another writer
 lw t0, 0(s2)
 beq t0, x0, alone
 sw x0, 4(s2)                   # gives way to readers
 jal x0, write
alone: lw t0, 8(s2)
 addi t0, t0, 1
 sw t0, 8(s2)
 lw t0, 12(s2)
 addi t0, t0, 1
 sw t0, 12(s2)
 sw x0, 4(s2)
done: addi a7, x0, 0            # call 0: halt
 addi a0, x0, 0
 ecall
bad: ebreak
