# A self-scheduled loop over the numbers 0 to 5: a fetch-and-add on word 0 hands out the next. Each number is added to word 1.
# On 64 processors there is one result: all halt with 00, word 0 is 70 (00000046), and word 1 is the sum, 15.
 lui s2, 0x80000                # the address of shared word 0
 addi s3, x0, 6
 addi s5, x0, 1
 addi s6, s2, 4
next: amoadd.w t0, s5, (s2)     # a number that no one else gets
 bgeu t0, s3, done
 amoadd.w x0, t0, (s6)
 jal x0, next
done: addi a7, x0, 0            # call 0: halt
 addi a0, x0, 0
 ecall
