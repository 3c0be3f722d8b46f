# A self-scheduled loop: the processors share the numbers 0 to 99, and work on each number once.
#
# A fetch-and-add on word 0 hands out the next number. However many processors ask at once, no two get the same number, and a
# slow one asks less often. Work on number i adds i * i to word 1, and sets bit i of the words from word 2 on. If the bit was set
# before, the processor stops at the ebreak.
start: lui s2, 0x80000          # the address of shared word 0
 addi s3, x0, 100
 addi s5, x0, 1
next: amoadd.w t0, s5, (s2)     # a number that no one else gets
 bgeu t0, s3, done
 mul t1, t0, t0
 addi t2, s2, 4
 amoadd.w x0, t1, (t2)
 srli t3, t0, 5
 slli t3, t3, 2
 add t3, t3, s2
 addi t3, t3, 8                 # the address of word 2 + i / 32
 sll t4, s5, t0                 # bit i mod 32
 amoor.w t5, t4, (t3)
 and t5, t5, t4
 beq t5, x0, next
 ebreak
done: addi a7, x0, 0            # call 0: halt
 addi a0, x0, 0
 ecall
