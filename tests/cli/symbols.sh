# shellcheck shell=bash
# What commands print with `--symbols` and `--abi`, and `stats --csv`.

# Symbols of the images, as nm prints them: two at one address, one with a size, and lines that name nothing.
symbol_lines() {
    printf '%s\n' '00010000 T _start' '00010010 00000008 t loop' '0000000000010008 t twice' '00010008 T before' \
        '         U missing' '00020000 D local' '80000000 00000004 B count' '80000008 B words' '80000080 b queue' \
        '10 T' 'xyz T name' '00010014 t $x' '' '00010018 t .Lend' 'FFFFFFFC A last'
}

# names COMMAND FILE WORD ..: with --symbols FILE the command prints what tests/tools/symbols.py makes of its lines, and has
# the same status.
names() {
    local command=$1 file=$2 plain=0 named=0
    shift 2
    ./ultra "$command" "$@" >"$room/plain" 2>"$room/err" || plain=$?
    ./ultra "$command" --symbols "$file" "$@" >"$room/named" 2>"$room/named.err" || named=$?
    diff "$room/err" "$room/named.err" && [ "$plain" -eq "$named" ] || { echo "status $plain, and $named with names" && return 1; }
    tests/tools/symbols.py "$command" "$file" <"$room/plain" | diff - "$room/named"
}

# Each line of the commands over the examples gets the names of its addresses and words.
names_lines() {
    local name command
    symbol_lines >"$room/symbols"
    for name in example hot_spot prefix_sums ebreak; do
        names run "$room/symbols" --sweep --k 1 --trace "$room/$name.trace" "$room/$name.elf" && names dis "$room/symbols" "$room/$name.elf" || return 1
        for command in replay order story; do
            names "$command" "$room/symbols" "$room/$name.trace" "$room/$name.elf" || return 1
        done
    done
    poked_trace >"$room/three.trace"
    for command in replay order story; do
        names "$command" "$room/symbols" "$room/three.trace" "$room/three.elf" || return 1
    done
    for name in lost_adds barrier_once barrier_stuck signal; do
        ./ultra asm "examples/explore/$name.s" "$room/$name.elf" && names explore "$room/symbols" --k 1 "$room/$name.elf" || return 1
    done
    names explore "$room/symbols" --every --states 40 "$room/barrier_once.elf" &&
        names hunt "$room/symbols" --k 1 --runs 40 --budget 20000 "$room/barrier_phase_late.elf" || return 1
    # Names are there, in the last lines that were compared too.
    grep -q '^word [0-9]* (' "$room/named" && ./ultra order --symbols "$room/symbols" "$room/hot_spot.trace" "$room/hot_spot.elf" | grep -q ' <before+0x4> .* word 0 (count) '
}
check 'with --symbols each address and each word that has a name gets it' names_lines

# An image's own symbol table: that of a C program, by each compiler, and what nm prints of it.
names_c() {
    local compiler compilers
    mapfile -t compilers < <(compilers_of_c)
    [ -d "$room/c" ] || cp -r examples/c "$room/c" || return 1
    for compiler in "${compilers[@]}"; do
        make -s -C "$room/c" clean && make -s -C "$room/c" "$compiler" queue.elf || return 1
        names run "$room/c/queue.elf" --sweep --k 2 --trace "$room/queue.trace" "$room/c/queue.elf" &&
            names order "$room/c/queue.elf" "$room/queue.trace" "$room/c/queue.elf" && names dis "$room/c/queue.elf" "$room/c/queue.elf" || return 1
        grep -q '^000[0-9a-f]* <main> ' "$room/named" || return 1
        ! command -v llvm-nm >/dev/null || { llvm-nm "$room/c/queue.elf" >"$room/queue.nm" && ./ultra dis --symbols "$room/queue.nm" "$room/c/queue.elf" | grep -q '<main>'; } || return 1
    done
}

# Of a file that ends within its tables, or with other bytes in them, the names that are whole remain. No such file is
# refused, and lines have nothing but names more.
names_what_is_whole() {
    local size at
    size=$(wc -c <"$room/c/queue.elf")
    ./ultra dis "$room/c/queue.elf" >"$room/plain" || return 1
    for ((at = 0; at < size; at += 97)); do
        head -c "$at" "$room/c/queue.elf" >"$room/cut.elf"
        ./ultra dis --symbols "$room/cut.elf" "$room/c/queue.elf" >"$room/out" 2>&1 && sed 's/ <[^>]*>//' "$room/out" | diff -q "$room/plain" - ||
            { echo "cut at $at" && return 1; }
        { head -c "$at" "$room/c/queue.elf" && printf '\377\377\377\377' && tail -c +"$((at + 5))" "$room/c/queue.elf"; } >"$room/cut.elf"
        ./ultra dis --symbols "$room/cut.elf" "$room/c/queue.elf" >"$room/out" 2>&1 && sed 's/ <[^>]*>//' "$room/out" | diff -q "$room/plain" - ||
            { echo "other bytes at $at" && return 1; }
    done
}
if ! command -v make >/dev/null || [ -z "$(compilers_of_c)" ]; then
    left_out 'symbols of C programs, because make or a compiler for RISC-V is not installed'
else
    check 'with --symbols the symbol table of a C program gives the names' names_c
    then_check 'a symbol table that is cut off or damaged has fewer names' names_what_is_whole
fi

# A text of nine instructions of which each kind is there, by ABI names: worked out by hand, and by symbols.py for the
# examples.
abi_text() {
    printf '%s\n' 'add x0, x1, x2' 'sub x3, x4, x5' 'lw x6, -4(x7)' 'sw x8, 0(x9)' 'beq x10, x18, 8' 'jal x27, -20' 'jalr x28, 4(x31)' \
        'amoadd.w x29, x30, (x17)' 'lui x16, 74565' 'ecall'
}
abi_lines() {
    printf '%s\n' 'add zero, ra, sp' 'sub gp, tp, t0' 'lw t1, -4(t2)' 'sw s0, 0(s1)' 'beq a0, s2, 00010018 <end>' 'jal s11, 00010000 <_start>' \
        'jalr t3, 4(t6)' 'amoadd.w t4, t5, (a7)' 'lui a6, 74565' ecall
}
writes_abi_names() {
    local name
    abi_text >"$room/abi.s" && assembles_to "$room/abi.s" "$room/abi.elf" || return 1
    printf '%s\n' '00010000 T _start' '00010018 t end' >"$room/symbols"
    ./ultra dis --abi --symbols "$room/symbols" "$room/abi.elf" | sed -E 's/^[0-9a-f]{8} (<[^>]*> )?[0-9a-f]{8} //' | diff <(abi_lines) - || return 1
    ./ultra dis --abi "$room/abi.elf" | sed -n '5s/.* beq/beq/p' | diff <(echo 'beq a0, s2, 00010018') - || return 1
    for name in example hot_spot prefix_sums; do
        ./ultra run --sweep --k 1 --trace "$room/$name.trace" "$room/$name.elf" >"$room/out" &&
            diff <(./ultra order "$room/$name.trace" "$room/$name.elf" | tests/tools/symbols.py order --abi) <(./ultra order --abi "$room/$name.trace" "$room/$name.elf") &&
            diff <(./ultra order "$room/$name.trace" "$room/$name.elf" | tests/tools/symbols.py order "$room/symbols" --abi) \
                <(./ultra order --abi --symbols "$room/symbols" "$room/$name.trace" "$room/$name.elf") || return 1
    done
}
check 'with --abi registers have the names of the ABI, and jumps and branches their targets' writes_abi_names

# Pictures of few and of many processors, in which names are whole, cut, and not there.
draws_names() {
    local stages number
    { symbol_lines && printf '%s\n' '0001000c T again<and>again&again' '80000000 00000004 B count_of_all_that_was_added'; } >"$room/symbols"
    for stages in 1 3 4; do
        ./ultra run --sweep --k "$stages" --trace "$room/drawn.trace" "$room/hot_spot.elf" >"$room/out" || return 1
        for number in 0 30 80; do
            ./ultra picture --step "$number" "$room/drawn.trace" "$room/hot_spot.elf" >"$room/plain.svg" &&
                ./ultra picture --step "$number" --symbols "$room/symbols" "$room/drawn.trace" "$room/hot_spot.elf" >"$room/named.svg" || return 1
            tests/tools/symbols.py picture "$room/symbols" <"$room/plain.svg" | diff - <(tests/tools/symbols.py picture <"$room/named.svg") ||
                { echo "after $number steps with k $stages" && return 1; }
        done
    done
    # Names are there, in the last picture that was compared too: 12 letters of each. If nothing has a name, no byte changes.
    grep -q ' to count_of_a\.\. {' "$room/named.svg" && grep -q '>0 run again&lt;and&gt;\.\. count_of_a\.\.<' "$room/named.svg" || return 1
    printf '%s\n' '00020000 00000004 D local' >"$room/symbols" &&
        ./ultra picture --step 80 --symbols "$room/symbols" "$room/drawn.trace" "$room/hot_spot.elf" | cmp "$room/plain.svg" -
}
check 'with --symbols picture draws words and program counters by their names' draws_names

# What cannot be read as symbols is refused before the command begins; what goes with no other option is refused too.
refuses_symbols() {
    ends_with_code 3 link "$room/none: $no_such_file" ./ultra dis --symbols "$room/none" "$room/three.elf" &&
        ends_with_code 3 link "$room: $is_a_folder" ./ultra run --sweep --symbols "$room" "$room/three.elf" &&
        ends_with_code 3 link "$room/none: $no_such_file" ./ultra picture --symbols "$room/none" "$room/three.trace" "$room/three.elf" &&
        ends 2 'error: standard input is asked for twice' ./ultra dis --symbols - - <"$room/three.elf" &&
        ends 2 'error: standard input is asked for twice' ./ultra picture --symbols - "$room/three.trace" - <"$room/three.elf" || return 1
    cp "$room/three.elf" "$room/same.elf" &&
        ends 2 'error: OUT is the same file as FILE' ./ultra run --symbols "$room/same.elf" --trace "$room/same.elf" "$room/three.elf" &&
        cmp "$room/three.elf" "$room/same.elf" || return 1
    head -c 16777217 /dev/zero >"$room/long" && ends 2 "error: '$room/long' has more than 16777216 bytes" ./ultra dis --symbols "$room/long" "$room/three.elf" || return 1
    local words
    for words in "run --json --symbols $room/symbols" 'order --json --abi' 'stats --json --csv' 'replay --csv' 'story --abi' 'stats --symbols x'; do
        # shellcheck disable=SC2086
        ./ultra $words "$room/three.trace" "$room/three.elf" >"$room/out" 2>&1 && return 1
        [ $? -eq 2 ] && grep -q '^error: ' "$room/out" || { cat "$room/out" && return 1; }
    done
}
check 'symbols that cannot be read are refused: link, status 3, and their options go with no other format' refuses_symbols

# The labels of a text by address, worked out by hand. Other commands read them as symbols. The image is as without them.
label_lines() {
    printf '%s\n' '00010000 00000004 t start' '00010004 00000008 t loop' '0001000c 00000000 t end' '0001000c 00000004 t stop' '80000000 00000004 d count'
}
writes_labels() {
    printf '%s\n' 'start: addi a0, x0, 5' 'loop: addi a0, a0, -1' 'bne a0, x0, loop' 'end:' 'stop: ecall' .shared 'count: .word 7' >"$room/labels.s"
    assembles_to "$room/labels.s" "$room/labels.elf" && ./ultra asm --symbols "$room/labels.map" "$room/labels.s" "$room/mapped.elf" &&
        cmp "$room/labels.elf" "$room/mapped.elf" && diff <(label_lines) "$room/labels.map" &&
        names dis "$room/labels.map" "$room/labels.elf" && grep -q '^0001000c <stop> ' "$room/named" || return 1
    ./ultra asm --symbols - "$room/labels.s" "$room/mapped.elf" | diff <(label_lines) - &&
        ./ultra asm --course --symbols "$room/course.map" - - <"$room/labels.s" | cmp "$room/labels.elf" - && diff <(label_lines) "$room/course.map" &&
        ./ultra asm --symbols "$room/course.map" "$room/ebreak.s" "$room/mapped.elf" && diff /dev/null "$room/course.map"
}
check 'with --symbols asm writes the labels of a text, and other commands read them' writes_labels

# Neither FILE nor OUT is overwritten. A text with a mistake leaves MAP, and a MAP that cannot be written leaves the image.
refuses_a_map() {
    local map line='error: MAP is the same file as FILE or OUT'
    printf 'start: ecall\n' >"$room/start.s" && printf frob >"$room/frob.s" && assembles_to "$room/start.s" "$room/start.elf" || return 1
    for map in start.s start.elf ../"$(basename "$room")"/start.s; do
        ends 2 "$line" ./ultra asm --symbols "$room/$map" "$room/start.s" "$room/start.elf" || return 1
    done
    ends 2 "$line" ./ultra asm --symbols "$room/new.elf" "$room/start.s" "$room/new.elf" && [ ! -e "$room/new.elf" ] &&
        ends 2 "$line" ./ultra asm --symbols - "$room/start.s" - && diff <(echo 'start: ecall') "$room/start.s" || return 1
    ends_with_code 2 'A1 line 1' "$room/frob.s" ./ultra asm --symbols "$room/frob.map" "$room/frob.s" "$room/frob.elf" && [ ! -e "$room/frob.map" ] &&
        ends_with_code 3 link "/dev/full: $no_space_left" ./ultra asm --symbols /dev/full "$room/start.s" "$room/full.elf" &&
        ends_with_code 3 link "$room/none/a.map: $no_such_file" ./ultra asm --symbols "$room/none/a.map" "$room/start.s" "$room/none.elf" &&
        cmp "$room/start.elf" "$room/full.elf" && cmp "$room/start.elf" "$room/none.elf"
}
check 'asm refuses a MAP that is FILE or OUT, and reports one that cannot be written: link, status 3' refuses_a_map

# Standard input as symbols.
reads_symbols() {
    symbol_lines >"$room/symbols"
    diff <(./ultra dis --symbols "$room/symbols" "$room/example.elf") <(./ultra dis --symbols - "$room/example.elf" <"$room/symbols")
}
check 'symbols come from standard input' reads_symbols

# ---- counts as CSV

prints_csv() {
    local name
    for name in example hot_spot prefix_sums ebreak; do
        ./ultra run --sweep --k 3 --trace "$room/$name.trace" "$room/$name.elf" >"$room/out" 2>&1
        # The status is 1 if a fault has stopped a processor.
        ./ultra stats --latency "$room/$name.trace" "$room/$name.elf" >"$room/counts" || [ $? -eq 1 ] || return 1
        tests/tools/counts.py <"$room/counts" |
            diff - <(./ultra stats --latency --csv "$room/$name.trace" "$room/$name.elf") || return 1
        grep -v '^latency' "$room/counts" | diff - <(./ultra stats "$room/$name.trace" "$room/$name.elf") || return 1
    done
    diff <(printf '%s\n' subject,number,count,value machine,,k,0 machine,,c,4 machine,,b,4 machine,,r,1) \
        <(./ultra run --sweep --k 0 --trace "$room/three.trace" "$room/three.elf" >"$room/out" && ./ultra stats --csv "$room/three.trace" "$room/three.elf" | head -n 5)
}
check 'with --csv stats prints a row for each number' prints_csv
