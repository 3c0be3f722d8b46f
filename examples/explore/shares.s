# A self-scheduled loop over the numbers 0 to 5: a fetch-and-add on word 0 hands out the next, and each processor prints those that it
# gets. On 64 processors there are 203 results, one for each way to divide six numbers into shares, whoever gets which.
 lui s2, 0x80000                # the address of shared word 0
 addi s3, x0, 6
 addi s5, x0, 1
 addi a7, x0, 1                 # call 1: print the byte in a0
next: amoadd.w a0, s5, (s2)     # a number that no one else gets
 bgeu a0, s3, done
 ecall
 jal x0, next
done: addi a7, x0, 0            # call 0: halt
 addi a0, x0, 0
 ecall
