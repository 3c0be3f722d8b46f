# A queue of two cells by fetch-and-add (Gottlieb, Lubachevsky and Rudolph, Basic Techniques for the Efficient Coordination of Very Large
# Numbers of Cooperating Sequential Processors, 1983).
#
# Word 0 counts the cells that are in use or about to be, and word 1 the items that are there and not about to be taken out: such a word
# is tested, changed, tested again, and changed back if the second test fails. Words 2 and 3 number the insertions and deletions. Number i
# uses cell i mod 2, whose first word says how often it was filled and emptied: a processor waits there for its turn.
# Each processor inserts an item, the number of the insertion plus 1, deletes an item, and adds it to word 4. At the end word 4 is n(n +
# 1) / 2.
 lui s2, 0x80000                # the address of shared word 0
 addi s3, x0, 2                 # cells
 addi s5, x0, 1
 addi s6, x0, -1
 addi s7, s2, 4
full: lw t0, 0(s2)
 bge t0, s3, full               # test,
 amoadd.w t0, s5, (s2)          # increment,
 blt t0, s3, put                # and test again
 amoadd.w x0, s6, (s2)
 jal x0, full
put: addi t1, s2, 8
 amoadd.w t0, s5, (t1)          # the number of this insertion
 andi t2, t0, -2                # how often the cell was filled and emptied by then
 andi t1, t0, 1
 slli t1, t1, 3
 add t1, t1, s2                 # its cell, 32 bytes from here
fill: lw t3, 32(t1)
 bne t3, t2, fill
 addi t0, t0, 1
 sw t0, 36(t1)
 addi t2, t2, 1
 sw t2, 32(t1)
 amoadd.w x0, s5, (s7)          # one more item is there
empty: lw t0, 4(s2)
 bge x0, t0, empty              # test,
 amoadd.w t0, s6, (s7)          # decrement,
 blt x0, t0, take               # and test again
 amoadd.w x0, s5, (s7)
 jal x0, empty
take: addi t1, s2, 12
 amoadd.w t0, s5, (t1)          # the number of this deletion
 andi t2, t0, -2
 addi t2, t2, 1
 andi t1, t0, 1
 slli t1, t1, 3
 add t1, t1, s2
clear: lw t3, 32(t1)
 bne t3, t2, clear              # some item is there, but not yet this one
 lw t0, 36(t1)
 addi t2, t2, 1
 sw x0, 36(t1)
 sw t2, 32(t1)
 amoadd.w x0, s6, (s2)          # one cell fewer is in use
 addi t1, s2, 16
 amoadd.w x0, t0, (t1)
 addi a7, x0, 0                 # call 0: halt
 addi a0, x0, 0
 ecall
