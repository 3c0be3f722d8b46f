# Each processor adds 1 to shared word 0 a hundred times, by the indivisible amoadd.w. No addition is lost, however many processors
# take part: each then reads at least its own hundred, writes A to the console and halts. Otherwise it stops at the ebreak.
start: lui x5, 0x80000          # the address of shared word 0
 addi x6, x0, 100               # how many additions are left
 addi x7, x0, 1
loop: amoadd.w x8, x7, (x5)     # x8 = the old value of the word
 addi x6, x6, -1
 bne x6, x0, loop
 lw x9, 0(x5)
 addi x11, x0, 100
 bltu x9, x11, bad
 addi x17, x0, 1                # call 1: send the low byte of x10 to the console
 addi x10, x0, 65
 ecall
 addi x17, x0, 0                # call 0: halt with the low byte of x10
 addi x10, x0, 0
 ecall
bad: ebreak
