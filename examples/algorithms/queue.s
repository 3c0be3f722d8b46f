# A queue by fetch-and-add: many processors insert and delete at once, nothing is lost, and nothing comes out twice.
#
# The queue has 8 cells. Word 0 counts the cells that are in use or about to be, and word 1 the items that are there and not about
# to be taken out. A processor tests such a word, changes it by a fetch-and-add, tests the value that this gave, and changes the
# word back if the second test fails. So nothing goes into a full queue, nothing comes out of an empty one, and no one waits for a
# lock. Words 2 and 3 number the insertions and the deletions; number i uses cell i mod 8. A cell has two words, from word 8 on:
# how often it was filled and emptied, from which a processor sees whether it is its turn, and the item.
#
# Processor p inserts 16 items, 16 * p to 16 * p + 15, and deletes as many. It sets the bit of each item that it gets, in
# the words from word 32 on, and stops at the ebreak if the bit was set before.
start: addi a7, x0, 2           # call 2: the processor's own number
 ecall
 slli s0, a0, 4                 # its first item
 lui s2, 0x80000                # the address of shared word 0
 addi s3, x0, 16                # items that are left
 addi s5, x0, 1
 addi s6, x0, -1
item: addi a1, s0, 0
 jal ra, insert
 jal ra, delete
 srli t0, a1, 5
 slli t0, t0, 2
 add t0, t0, s2
 addi t0, t0, 128               # the address of word 32 + item / 32
 sll t1, s5, a1                 # bit item mod 32
 amoor.w t2, t1, (t0)
 and t2, t2, t1
 bne t2, x0, bad
 addi s0, s0, 1
 addi s3, s3, -1
 bne s3, x0, item
 addi a7, x0, 0                 # call 0: halt
 addi a0, x0, 0
 ecall
bad: ebreak

insert: addi t1, x0, 8          # inserts a1
full: lw t0, 0(s2)
 bge t0, t1, full               # test,
 amoadd.w t0, s5, (s2)          # increment,
 blt t0, t1, put                # and test again
 amoadd.w x0, s6, (s2)
 jal x0, full
put: addi t2, s2, 8
 amoadd.w t2, s5, (t2)          # the number of this insertion
 andi t3, t2, 7
 slli t3, t3, 3
 add t3, t3, s2                 # its cell, 32 bytes from here
 srli t2, t2, 3
 slli t2, t2, 1                 # how often the cell was filled and emptied by then
fill: lw t4, 32(t3)
 bne t4, t2, fill
 sw a1, 36(t3)
 addi t2, t2, 1
 sw t2, 32(t3)
 addi t4, s2, 4
 amoadd.w x0, s5, (t4)          # one more item is there
 jalr x0, 0(ra)

delete: addi t1, s2, 4          # deletes an item, into a1
empty: lw t0, 4(s2)
 bge x0, t0, empty              # test,
 amoadd.w t0, s6, (t1)          # decrement,
 blt x0, t0, take               # and test again
 amoadd.w x0, s5, (t1)
 jal x0, empty
take: addi t2, s2, 12
 amoadd.w t2, s5, (t2)          # the number of this deletion
 andi t3, t2, 7
 slli t3, t3, 3
 add t3, t3, s2
 srli t2, t2, 3
 slli t2, t2, 1
 addi t2, t2, 1
clear: lw t4, 32(t3)
 bne t4, t2, clear
 lw a1, 36(t3)
 sw x0, 36(t3)
 addi t2, t2, 1
 sw t2, 32(t3)
 amoadd.w x0, s6, (s2)          # one cell fewer is in use
 jalr x0, 0(ra)
