# Each processor adds 1 to word 0 once, by a load and a store, so additions can be lost.
 lui s2, 0x80000                # the address of shared word 0
 lw t0, 0(s2)
 addi t0, t0, 1
 sw t0, 0(s2)
 ecall                          # call 0: halt
