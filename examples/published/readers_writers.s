# Readers and writers, of whom readers go first: the first problem of Courtois, Heymans and Parnas (Concurrent Control with "Readers" and
# "Writers", 1971), by fetch-and-add in place of their semaphores.
#
# Word 0 counts the readers, and word 1 is 1 while a writer writes or tries to. A reader counts itself, waits until no writer is there,
# reads, and takes its count back. A writer takes word 1 by a swap. If it then sees a reader, it gives way: it sets word 1 to 0, and tries
# again. Processors with even numbers write words 2 and 3 once. The others read both once, and stop at the ebreak if they differ. At the
# end words 2 and 3 are the number of writers, and words 0 and 1 are 0.
 addi a7, x0, 2                 # call 2: the processor's own number
 ecall
 lui s2, 0x80000                # the address of shared word 0
 addi s5, x0, 1
 addi s6, x0, -1
 addi s7, s2, 4
 andi a0, a0, 1
 beq a0, x0, write
 amoadd.w t1, s5, (s2)          # one more reader
look: lw t0, 4(s2)
 bne t0, x0, look
 lw t2, 8(s2)
 lw t3, 12(s2)
 bne t2, t3, bad
 amoadd.w x0, s6, (s2)          # one fewer
 jal x0, done
write: amoswap.w t0, s5, (s7)
 bne t0, x0, write              # there is another writer
 lw t0, 0(s2)
 beq t0, x0, alone
 sw x0, 4(s2)                   # gives way to readers
 jal x0, write
alone: lw t0, 8(s2)
 addi t0, t0, 1
 sw t0, 8(s2)
 lw t0, 12(s2)
 addi t0, t0, 1
 sw t0, 12(s2)
 sw x0, 4(s2)
done: addi a7, x0, 0            # call 0: halt
 addi a0, x0, 0
 ecall
bad: ebreak
