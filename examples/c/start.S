# Where each processor starts: it takes a stack in its own local memory, calls `main` with its own
# number and the number of processors, and halts with the byte that `main` returns.

    .section .text.start, "ax"
    .globl start
start:
    lui     sp, %hi(stack_top)
    addi    sp, sp, %lo(stack_top)
    li      a7, 3               # the number of processors
    ecall
    mv      s0, a0
    li      a7, 2               # the processor's own number
    ecall
    mv      a1, s0
    call    main
    li      a7, 0               # halt with the low byte of a0
    ecall
