# Each processor adds 1 to word 0, and halts with its own number. It asks for that number after a reference, so processors are not
# exchanged. own_ticket.s does the same with a ticket in place of the number, and there processors are exchanged.
# Question: do all processors halt with different numbers? There is one result: processor P halts with P, and word 0 is the number of
# processors. But each of n processors has added or has not, which makes 2^n states: 65,536 for 16 processors. For 64 the search gives up.
 lui s2, 0x80000                # the address of shared word 0
 addi s5, x0, 1
 amoadd.w x0, s5, (s2)
 addi a7, x0, 2                 # call 2: the processor's own number
 ecall
 addi a7, x0, 0                 # call 0: halt
 ecall
