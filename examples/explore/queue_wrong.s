# The queue of queue.s, wrong: a processor that takes out an item does not wait until it is there, and may get 0.
 addi a7, x0, 2                 # call 2: the processor's own number
 ecall
 lui s2, 0x80000                # the address of shared word 0
 addi s5, x0, 1
 addi t0, a0, 1                 # the item
 amoadd.w t1, s5, (s2)          # its place
 slli t1, t1, 2
 add t1, t1, s2
 sw t0, 8(t1)
 addi t2, s2, 4
 amoadd.w t1, s5, (t2)          # the place of the item that it takes out
 slli t1, t1, 2
 add t1, t1, s2
 lw a0, 8(t1)                   # wrong: the place may be taken, and the item not there yet
 addi a7, x0, 0                 # call 0: halt
 ecall
