# A hot spot: all processors refer to one word.
#
# Each processor adds 1 to word 0 and then reads it, a hundred times. Between these two references, and from one round to the next,
# the word does not decrease, and it grows by at least the processor's own addition. Otherwise the processor stops at the ebreak.
start: lui s2, 0x80000          # the address of shared word 0
 addi s3, x0, 100               # rounds that are left
 addi s5, x0, 1
again: amoadd.w t0, s5, (s2)
 bltu t0, s4, bad               # s4: what it read before, at first 0
 lw s4, 0(s2)
 bgeu t0, s4, bad               # its own addition is there
 addi s3, s3, -1
 bne s3, x0, again
 addi a7, x0, 0                 # call 0: halt
 addi a0, x0, 0
 ecall
bad: ebreak
