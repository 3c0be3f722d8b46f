# Each processor adds 1 to word 0 three times, by fetch-and-add: no addition is lost.
# On 64 processors there is one result: all halt with 00, and word 0 is 192 (000000c0).
 lui s2, 0x80000                # the address of shared word 0
 addi s5, x0, 1
 amoadd.w x0, s5, (s2)
 amoadd.w x0, s5, (s2)
 amoadd.w x0, s5, (s2)
 ecall                          # call 0: halt
