# Prefix sums by doubling: processor p starts with p + 1, and ends with the sum of all numbers up to its own.
#
# Number p is in word 16 + p. In each round a processor reads the number `distance` places before its own, and adds it after a
# barrier, so that no one reads what was added in the same round. Then the distance doubles. Words 0 and 1 belong to the
# barrier.
start: addi a7, x0, 2           # call 2: the processor's own number
 ecall
 addi s0, a0, 0
 addi a7, x0, 3                 # call 3: how many processors there are
 ecall
 addi s1, a0, 0
 lui s2, 0x80000                # the address of shared word 0
 addi s5, x0, 1
 slli s3, s0, 2
 add s3, s3, s2                 # its number is 64 bytes from here
 addi t0, s0, 1
 sw t0, 64(s3)
 addi s4, x0, 1                 # the distance
 jal ra, barrier
double: bgeu s4, s1, done
 addi s6, x0, 0
 bltu s0, s4, first             # there is no number so far back
 slli t0, s4, 2
 sub t0, s3, t0
 lw s6, 64(t0)
first: jal ra, barrier
 lw t1, 64(s3)
 add t1, t1, s6
 sw t1, 64(s3)
 jal ra, barrier
 slli s4, s4, 1
 jal x0, double
done: addi a7, x0, 0            # call 0: halt
 addi a0, x0, 0
 ecall

barrier: lw t0, 4(s2)           # as in barrier.s
 amoadd.w t1, s5, (s2)
 addi t1, t1, 1
 bne t1, s1, wait
 sw x0, 0(s2)
 addi t2, s2, 4
 amoadd.w x0, s5, (t2)
 jalr x0, 0(ra)
wait: lw t1, 4(s2)
 beq t1, t0, wait
 jalr x0, 0(ra)
