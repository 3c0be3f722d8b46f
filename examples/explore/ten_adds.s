# Each processor adds 1 to word 0 ten times, by a load and a store.
# Question: two processors make twenty additions. What can the sum be? Each number from 2 to 20.
 lui s2, 0x80000                # the address of shared word 0
 addi s3, x0, 10                # additions left
again: lw t0, 0(s2)
 addi t0, t0, 1
 sw t0, 0(s2)
 addi s3, s3, -1
 bne s3, x0, again
 ecall                          # call 0: halt
