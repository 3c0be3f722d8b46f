# Each processor adds 1 to word 0, takes a ticket by a fetch-and-add on word 1, and halts with the ticket. It never asks for its own
# number, as own_number.s does, so processors can be exchanged.
# Question: do all processors halt with different numbers? On 64 processors there is one result: they halt with 00 to 3f, and words 0
# and 1 are 64 (00000040). It stands for every way to deal out the 64 tickets to the 64 processors.
 lui s2, 0x80000                # the address of shared word 0
 addi s5, x0, 1
 addi s6, s2, 4
 amoadd.w x0, s5, (s2)
 amoadd.w a0, s5, (s6)          # a number that no other processor gets
 addi a7, x0, 0                 # call 0: halt
 ecall
