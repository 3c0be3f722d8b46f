# Processor 0 writes words 2 and 3 once, and the others read both once. Word 0 counts the readers, and word 1 is 1 while there is a
# writer. A reader that sees no writer counts itself, and looks again: the writer may have come in between. A reader that sees the
# two words differ stops at the ebreak.
 addi a7, x0, 2                 # call 2: the processor's own number
 ecall
 lui s2, 0x80000                # the address of shared word 0
 addi s5, x0, 1
 addi s6, x0, -1
 addi s7, s2, 4
 beq a0, x0, write
read: lw t0, 4(s2)
 bne t0, x0, read
 amoadd.w x0, s5, (s2)          # one more reader
 lw t0, 4(s2)                   # the second look
 beq t0, x0, reading
 amoadd.w x0, s6, (s2)
 jal x0, read
reading: lw t1, 8(s2)
 lw t2, 12(s2)
 bne t1, t2, bad
 amoadd.w x0, s6, (s2)          # one reader fewer
 jal x0, done
write: amoswap.w t1, s5, (s7)
leaving: lw t1, 0(s2)
 bne t1, x0, leaving            # some still read
 lw t2, 8(s2)
 addi t2, t2, 1
 sw t2, 8(s2)
 lw t2, 12(s2)
 addi t2, t2, 1
 sw t2, 12(s2)
 sw x0, 4(s2)
done: addi a7, x0, 0            # call 0: halt
 addi a0, x0, 0
 ecall
bad: ebreak
