# shellcheck shell=bash
# `ultra asm --course` and `ultra check --course`.

# Lines without labels, which LLVM's assembler encodes alike. `call`, `tail`, `la` and `li` of a multiple of 4096 differ.
course_lines() {
    printf '%s\n' nop 'mv a0, t1' 'not a0, a1' 'neg s0, s1' 'seqz a0, a1' 'snez a0, a1' 'sltz a0, a1' 'sgtz a0, a1' \
        'beqz t0, 8' 'bnez t0, 8' 'blez t0, 8' 'bgez t0, 8' 'bltz t0, 8' 'bgtz t0, 8' 'bgt t0, t1, 8' 'ble t0, t1, 8' \
        'bgtu t0, t1, 8' 'bleu t0, t1, 8' 'j 8' 'jal 8' 'jr t0' 'jalr t0' 'jalr ra, a0' 'jalr ra, a0, 8' \
        ret 'lw t0, (a0)' 'lbu t0, (a0)' 'sw t0, (a0)' 'amoadd.w a0, a1, 0(a2)' fence 'fence rw, rw' 'fence w, r' \
        'fence i, o' 'li a0, 0' 'li a0, 2047' 'li a0, -2048' 'li a0, 2048' 'li a0, -2049' 'li a0, 0x12345678' \
        'li a0, 0xdeadbeef' 'li a0, 2147483647'
}

# The words of the code that LLVM's assembler makes of standard input.
words_by_llvm() {
    llvm-mc -triple=riscv32 -mattr=+m,+a -show-encoding |
        sed -n 's/.*\[0x\(..\),0x\(..\),0x\(..\),0x\(..\)\]/\4\3\2\1/p'
}

agrees_with_llvm() {
    course_lines >"$room/course.s"
    ./ultra asm --course "$room/course.s" "$room/course.elf" &&
        diff <(words_by_llvm <"$room/course.s") <(./ultra dis "$room/course.elf" | cut -d' ' -f2)
}
if [ -n "$(type -P llvm-mc)" ] && [ -n "$(words_by_llvm <<<nop)" ]; then
    check 'asm --course encodes pseudo-instructions as LLVM does' agrees_with_llvm
else
    left_out 'a comparison with llvm-mc for RISC-V'
fi

runs_the_example() {
    ./ultra asm --course examples/course/ticket_lock.s "$room/course.elf" && ./ultra run --sweep --k 2 "$room/course.elf" >"$room/out" &&
        grep -x 'word 2 00000028' "$room/out"
}
check 'four processors count to 40 by examples/course/ticket_lock.s' runs_the_example

# A text of the plain grammar has the same image with --course.
keeps_plain_texts() {
    local text
    for text in examples/algorithms/*.s examples/explore/*.s; do
        ./ultra asm "$text" "$room/plain.elf" && ./ultra asm --course "$text" "$room/course.elf" &&
            cmp "$room/plain.elf" "$room/course.elf" || return 1
    done
}
check 'asm --course gives plain texts the same images' keeps_plain_texts

names_the_line() {
    printf 'li a0, 70000\nbeqz a0, nowhere\n' >"$room/course.s"
    ends_with_code 2 'A5 line 2' "$room/course.s" ./ultra asm --course "$room/course.s" "$room/course.elf" &&
        diff <(./ultra check --course "$room/course.s"; echo "status $?") - <<'END'
line 2 column 1: A5 beqz: there is no such label
1 fault
status 1
END
}
check 'asm and check --course name the line of the course text' names_the_line
