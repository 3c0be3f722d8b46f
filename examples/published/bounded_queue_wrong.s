# A queue of two cells by fetch-and-add, wrong: a processor that deletes does not wait for its turn at the cell.
#
# It is bounded_queue.s without the loop at `clear`. Word 1 says that some item is there, but a later insertion may have been faster than
# the one whose item it takes. Then it takes 0, and the item that comes afterwards is lost, or never goes in.
# Question: what is the sum of the items, word 4? On two processors 3 or 2, and from 3 of 373 states no end can be reached.
 lui s2, 0x80000                # the address of shared word 0
 addi s3, x0, 2                 # cells
 addi s5, x0, 1
 addi s6, x0, -1
 addi s7, s2, 4
full: lw t0, 0(s2)
 bge t0, s3, full               # test,
 amoadd.w t0, s5, (s2)          # increment,
 blt t0, s3, put                # and test again
 amoadd.w x0, s6, (s2)
 jal x0, full
put: addi t1, s2, 8
 amoadd.w t0, s5, (t1)          # the number of this insertion
 andi t2, t0, -2                # how often the cell was filled and emptied by then
 andi t1, t0, 1
 slli t1, t1, 3
 add t1, t1, s2                 # its cell, 32 bytes from here
fill: lw t3, 32(t1)
 bne t3, t2, fill
 addi t0, t0, 1
 sw t0, 36(t1)
 addi t2, t2, 1
 sw t2, 32(t1)
 amoadd.w x0, s5, (s7)          # one more item is there
empty: lw t0, 4(s2)
 bge x0, t0, empty              # test,
 amoadd.w t0, s6, (s7)          # decrement,
 blt x0, t0, take               # and test again
 amoadd.w x0, s5, (s7)
 jal x0, empty
take: addi t1, s2, 12
 amoadd.w t0, s5, (t1)          # the number of this deletion
 andi t2, t0, -2
 addi t2, t2, 1
 andi t1, t0, 1
 slli t1, t1, 3
 add t1, t1, s2
 lw t0, 36(t1)                  # wrong: some item is there, but perhaps not yet this one
 addi t2, t2, 1
 sw x0, 36(t1)
 sw t2, 32(t1)
 amoadd.w x0, s6, (s2)          # one cell fewer is in use
 addi t1, s2, 16
 amoadd.w x0, t0, (t1)
 addi a7, x0, 0                 # call 0: halt
 addi a0, x0, 0
 ecall
