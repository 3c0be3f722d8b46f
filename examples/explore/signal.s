# A signal that can be missed: processor 0 sets word 0 to 1, and then back to 0, while the others wait for the 1. One that looks too late
# waits for ever. On 64 processors there is one result: all halt with 00. But from 63 of 129 states no end can be reached: in them
# processor 0 has taken the signal back, and 1 to 63 of the others have not seen it.
 addi a7, x0, 2                 # call 2: the processor's own number
 ecall
 lui s2, 0x80000                # the address of shared word 0
 addi s5, x0, 1
 bne a0, x0, wait
 sw s5, 0(s2)
 sw x0, 0(s2)
 jal x0, done
wait: lw t0, 0(s2)
 beq t0, x0, wait
done: addi a7, x0, 0           # call 0: halt
 addi a0, x0, 0
 ecall
