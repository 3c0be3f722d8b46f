start: addi a0, a0, 1
 mv a0, a1
