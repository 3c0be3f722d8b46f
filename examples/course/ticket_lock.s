# A ticket lock, in the words of a RISC-V textbook: ./ultra asm --course examples/course/ticket_lock.s course.elf
#
# Ten times each processor takes a ticket by a fetch-and-add, waits until it is served, and adds 1 to `count` by a load and
# a store. Then it halts. On 2^k processors `count` ends with 10 * 2^k.
        .equ    HALT, 0                 # environment call 0
        .equ    TIMES, 10
        .text
        .globl  start
        .align  2
start:
        la      s2, ticket
        la      s3, served
        li      s4, TIMES
again:
        li      t0, 1
        amoadd.w t0, t0, 0(s2)          # my ticket
wait:
        lw      t1, (s3)
        bne     t1, t0, wait
        call    add_one
        lw      t1, served
        addi    t1, t1, 1
        sw      t1, served, t2          # the next one
        addi    s4, s4, -1
        bgtz    s4, again
        li      a7, HALT
        li      a0, 0
        ecall

add_one:
        lw      t3, count
        addi    t3, t3, 1
        sw      t3, count, t4
        ret

        .data
ticket: .word   0
served: .word   0
        .align  2
count:  .word   0
