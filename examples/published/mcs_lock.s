# The lock of Mellor-Crummey and Scott (Algorithms for Scalable Synchronization on Shared-Memory Multiprocessors, 1991), in their form
# with fetch-and-store alone: processors wait in a list, each at a word of its own.
#
# Word 1 is the tail of the list: the address of the last one's node, or 0. Processor p has the node of words 4 + 2p, the next node, and 5
# + 2p, which is 1 while it is to wait. It swaps its node into the tail, and if there was another, links its node behind that one. Who
# leaves lets the next one go. If it sees none, it swaps 0 into the tail. If that gave not its own node, others have come, and it puts
# their tail back; whoever came in between goes before them.
# Each processor is inside once, and adds 1 to word 0 by a load and a store. At the end word 0 is n, and all others are 0.
 addi a7, x0, 2                 # call 2: the processor's own number
 ecall
 lui s2, 0x80000                # the address of shared word 0
 slli t0, a0, 3
 add s3, s2, t0
 addi s3, s3, 16                # its node
 addi s5, x0, 1
 addi s6, s2, 4
 amoswap.w t0, s3, (s6)
 beq t0, x0, inside
 sw s5, 4(s3)                   # it is to wait
 sw s3, 0(t0)                   # and only then is found
wait: lw t1, 4(s3)
 bne t1, x0, wait
inside: lw t1, 0(s2)
 addi t1, t1, 1
 sw t1, 0(s2)
 lw t1, 0(s3)
 bne t1, x0, pass
 amoswap.w t2, x0, (s6)
 beq t2, s3, done               # nobody has come
 amoswap.w t3, t2, (s6)         # t3: the last of those who came in between
link: lw t1, 0(s3)
 beq t1, x0, link               # the next one has not linked its node yet
 beq t3, x0, pass
 sw t1, 0(t3)
 jal x0, done
pass: sw x0, 4(t1)
done: sw x0, 0(s3)              # its node is as it was
 addi a7, x0, 0                 # call 0: halt
 addi a0, x0, 0
 ecall
