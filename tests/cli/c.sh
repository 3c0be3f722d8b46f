# shellcheck shell=bash
# The programs of examples/c, with each installed compiler for RISC-V.

# The installed compilers, each as an argument of `make`, which uses clang if there is no GNU compiler.
compilers_of_c() {
    ! clang --print-targets 2>/dev/null | grep -q riscv32 || ! command -v ld.lld llvm-objdump >/dev/null || echo GNU=
    ! command -v riscv64-unknown-elf-gcc >/dev/null || echo "GNU=$(command -v riscv64-unknown-elf-gcc)"
}

if [ -z "$(compilers_of_c)" ] || ! command -v make >/dev/null; then
    left_out 'C programs, because make or a compiler for RISC-V (GNU, or clang with ld.lld) is not installed'
    return
fi

# make_c WORD ..: `make` in a copy of examples/c, with the first compiler unless a word says another.
make_c() {
    [ -d "$room/c" ] || cp -r examples/c "$room/c" || return 1
    make -s -C "$room/c" "$(compilers_of_c | head -n 1)" "$@"
}

# links_c PROGRAM: makes the program's image in $room.
links_c() {
    make_c "$1.elf" && cp "$room/c/$1.elf" "$room"
}

# ---- images of the examples

# `make` makes an image of each program, and the map of a program says which words its variables are.
makes_c() {
    printf '#include "ultra.h"\nSHARED(int) three[3];\nSHARED(int) one;\nint main(void) { return three[2] + one; }\n' >"$room/two.c"
    make_c clean && cp "$room/two.c" "$room/c" && make_c all two.map || return 1
    diff <(cd examples/c && printf '%s\n' ./*.c explore/*.c two.c | sed 's|^\./||; s/c$/elf/' | grep -v '^runtime' | sort) \
        <(cd "$room/c" && printf '%s\n' ./*.elf explore/*.elf | sed 's|^\./||' | sort) &&
        diff <(printf '%s\n' 'word 0 three' 'word 3 one') <(sort -n -k2 "$room/c/two.map")
}
check '`make` makes an image of each C program, and a map lists the words of variables' makes_c

# has_instructions NAME ..: the code of `primes` has these instructions.
has_instructions() {
    local name
    ./ultra dis "$room/primes.elf" >"$room/out" 2>&1 || return 1
    for name in "$@"; do
        grep " $name " "$room/out" || return 1
    done
}

# Four processors find the primes below 1,000. Each prints how many it found; all are 168, and their sum is 76,127.
finds_primes() {
    links_c primes && has_instructions mul divu remu amoadd.w &&
        ./ultra run --sweep --k 2 "$room/primes.elf" >"$room/out" 2>&1 &&
        diff <(printf '%s\n' 'console 30' 'console 3830' 'console 31' 'console 3837' 'word 0 000000a8' 'word 1 0001295f') \
            <(grep -o 'console.*\|^word.*' "$room/out")
}
check 'a C program multiplies and divides on four processors' finds_primes

# final_words_in_c NAME COUNT: the lines for the words with which a C program ends on COUNT processors. They are those
# of examples/algorithms at other places.
final_words_in_c() {
    local n=$2 word
    case $1 in
        barrier) printf 'word %d %08x\n' 1 20 2 $((10 * n)) ;;
        queue)
            printf 'word %d %08x\n' 2 $((16 * n)) 3 $((16 * n))
            for ((word = 4; word < 20; word += 2)); do
                printf 'word %d %08x\n' "$word" $((4 * n))
            done
            for ((word = 0; 32 * word < 16 * n; word++)); do
                printf 'word %d %08x\n' $((20 + word)) $((16 * n - 32 * word < 32 ? (1 << 16) - 1 : 0xffffffff))
            done
            ;;
    esac
}

# ends_in_c NAME: a C program ends as worked out by hand on 1 to 64 processors.
ends_in_c() {
    local k
    links_c "$1" || return 1
    for k in {0..6}; do
        ./ultra run --sweep --k "$k" "$room/$1.elf" >"$room/out" 2>&1 || { cat "$room/out" && return 1; }
        diff <(final_words_in_c "$1" $((1 << k))) <(grep '^word' "$room/out") || return 1
        [ "$(grep -c '^processor .* halt 00 ' "$room/out")" -eq $((1 << k)) ] || return 1
    done
}
check 'the barrier in C ends as worked out by hand on 1 to 64 processors' ends_in_c barrier
check 'the queue in C ends as worked out by hand on 1 to 64 processors' ends_in_c queue

# With each compiler at each level, processors see a node that a shared pointer publishes. An item of a queue and the
# sum of all processors are right too. The compiler chooses whether the pointer is word 0 or 1; the node is the other.
shares_a_pointer() {
    local compiler level
    while read -r compiler; do
        for level in -O0 -O2 -Os; do
            make_c clean && make_c "$compiler" "CFLAGS=$level -Wextra -Werror" shared_pointer.elf queue.elf sum.elf || return 1
            ./ultra run --sweep --k 2 "$room/c/shared_pointer.elf" >"$room/out" 2>&1 &&
                diff <(printf '%s\n' 00000007 00000015 8000000) <(sed -n 's/^word [0-2] //p' "$room/out" | sed 's/^\(8000000\).$/\1/' | sort) &&
                ./ultra run --k 2 "$room/c/queue.elf" >"$room/out" 2>&1 && diff <(final_words_in_c queue 4) <(grep '^word' "$room/out") &&
                ./ultra run --k 2 "$room/c/sum.elf" 2>&1 | grep -x 'word 0 0000001e' || { cat "$room/out" && return 1; }
        done
    done < <(compilers_of_c)
}
check 'a shared pointer publishes a node, with each C compiler at -O0, -O2 and -Os' shares_a_pointer

# A C++ program: it hands out ten indexes once each, adds up their sum, 45, under a lock, and exchanges pointers by
# fetch-and-store.
runs_cpp() {
    local compiler
    cat >"$room/cpp.cc" <<'END'
#include "parallel.h"
struct node { int value; };
static SHARED(struct node[2]) nodes;
static SHARED(volatile struct node *) head;
static SHARED(unsigned) sum;
static SHARED_DATA(int) limit = 10;
static SHARED(struct ticket_lock) lock;
static SHARED(int) next;
extern "C" int main(int number, int) {
    volatile struct node *before = fetch_and_store(&head, &nodes[number & 1]);
    if (before && before != &nodes[0] && before != &nodes[1]) fail();
    self_scheduled(i, &next, limit) {
        ticket_lock(&lock);
        sum = sum + i;
        ticket_unlock(&lock);
    }
    return 0;
}
END
    while read -r compiler; do
        make_c clean && cp "$room/cpp.cc" "$room/c" && make_c "$compiler" 'CFLAGS=-O2 -Wextra -Werror' cpp.elf || return 1
        ./ultra run --sweep --k 1 "$room/c/cpp.elf" >"$room/out" 2>&1 && diff <(printf '%s\n' 0000000a 0000000a 0000000a 0000000c 0000002d) \
            <(sed -n 's/^word [0-9]* //p' "$room/out" | grep -v '^8000000' | sort) || { cat "$room/out" && return 1; }
    done < <(compilers_of_c)
}
check 'a C++ program shares a loop, a lock and a pointer' runs_cpp

# ---- every result of the parts of parallel.h

hex() {
    printf %08x "$1"
}

# halts_of COUNT BYTE: COUNT processors halt with BYTE.
halts_of() {
    local p
    for ((p = 0; p < $1; p++)); do printf 'halt %s ' "$2"; done
}

# expected_results_in_c NAME STAGES: the results of a program of examples/c/explore, worked out by hand: how the
# processors halt, and the words.
expected_results_in_c() {
    local n=$((1 << $2))
    case $1 in
        barrier) echo "$(halts_of "$n" 00)word 0 $(hex "$n") word 2 00000002 " ;;
        ticket_lock) echo "$(halts_of "$n" 00)word 0 $(hex $((2 * n))) word 1 $(hex $((2 * n))) word 2 $(hex $((2 * n))) " ;;
        readers_writers) echo "$(halts_of "$n" 00)word 1 00000001 word 2 00000001 " ;;
        semaphore) echo "$(halts_of $((n - 1)) 00)halt 01 " ;;
        queue) # either of two processors gets the first item
            if [ "$n" -eq 1 ]; then
                echo 'halt 01 word 2 00000001 word 3 00000001 word 4 00000002 '
            else
                printf '%s word 2 00000002 word 3 00000002 word 4 00000002 word 6 00000002 \n' 'halt 01 halt 02' 'halt 02 halt 01'
            fi
            ;;
        self_scheduled) echo "$(halts_of "$n" 00)word 0 $(hex $((3 + n))) word 1 00000003 " ;;
    esac
}

# explores_c NAME: on one and on two processors, the results of all schedules are those that were worked out.
explores_c() {
    local stages
    make_c "explore/$1.elf" || return 1
    for stages in 0 1; do
        ./ultra explore --k "$stages" "$room/c/explore/$1.elf" >"$room/results" 2>&1 || { cat "$room/results" && return 1; }
        diff <(expected_results_in_c "$1" "$stages") <(awk '/^result / { if (line) print line; line = "" } /^processor / { line = line $5 " " $6 " " }
            /^word / { line = line $0 " " } END { print line }' "$room/results" | sort) || return 1
    done
}
for name in barrier ticket_lock readers_writers semaphore queue self_scheduled; do
    check "examples/c/explore/$name.c has the results that were worked out by hand, and no others" explores_c "$name"
done

# ---- programs of the kinds that people write

# prints_as_worked_out NAME COUNT SIZE ..: in each report or result of $room/out, processor 0 prints what
# tests/tools/c_examples.py works out in another way, and all processors halt with 0.
prints_as_worked_out() {
    local worked_out="$room/$*"
    [ -s "$worked_out" ] || { python3 tests/tools/c_examples.py "$@" | od -An -v -tx1 | tr -d ' \n' && echo; } >"$worked_out"
    diff "$worked_out" \
        <(sed -n 's/^processor 0 .* halt 00 .*console //p' "$room/out" | sort -u) &&
        ! grep '^processor [0-9]' "$room/out" | grep -v ' halt 00 '
}

# runs_in_c NAME WORD ..: a program that is made by `make` with these words prints what was worked out, by the sweep on 1
# to 8 processors. At -O2 it does so too on 4 by threads, on 8 with room for two messages in a queue, and on 64.
runs_in_c() {
    local name=$1 run runs=('0 --sweep' '1 --sweep' '2 --sweep' '3 --sweep')
    shift
    [[ $* != *-O2* ]] || runs+=('2' '3 --sweep --c 2' '6 --sweep')
    make_c clean && make_c "$@" "$name.elf" || return 1
    for run in "${runs[@]}"; do
        # shellcheck disable=SC2086
        if ! ./ultra run --k $run "$room/c/$name.elf" >"$room/out" 2>&1 || ! prints_as_worked_out "$name" $((1 << ${run%% *})); then
            echo "$* --k $run" && cat "$room/out" && return 1
        fi
    done
}

# prints_in_c NAME: it does so by each compiler at each level.
prints_in_c() {
    local compiler level
    while read -r compiler; do
        for level in -O0 -O2 -Os; do
            runs_in_c "$1" "$compiler" "CFLAGS=$level -Wextra -Werror" || return 1
        done
    done < <(compilers_of_c)
}

# always_prints_in_c NAME STAGES SIZE ..: with small sizes, by each schedule a program prints what was worked out, and an
# end can always be reached.
always_prints_in_c() {
    local name=$1 stages=$2
    shift 2
    make_c clean && make_c "CFLAGS=-O2 -Wextra -Werror ${*/#/-D}" "$name.elf" &&
        ./ultra explore --k "$stages" "$room/c/$name.elf" >"$room/out" 2>&1 && prints_as_worked_out "$name" $((1 << stages)) "$@" &&
        tail -n 1 "$room/out" | grep -x 'some schedule never ends; an end can always be reached' || { cat "$room/out" && return 1; }
}

for name in tasks bitonic_sort heat allocator sieve histogram nbody; do
    check "examples/c/$name.c prints what was worked out, by each C compiler at -O0, -O2 and -Os" prints_in_c "$name"
done
check 'every schedule of examples/c/tasks.c, for a small board' always_prints_in_c tasks 1 QUEENS=2
check 'every schedule of examples/c/tasks.c, with a queue that is full' always_prints_in_c tasks 1 QUEENS=3 CELLS=1
check 'every schedule of examples/c/bitonic_sort.c, for 8 keys' always_prints_in_c bitonic_sort 1 KEYS=8
check 'every schedule of examples/c/bitonic_sort.c, for 4 keys on 4 processors' always_prints_in_c bitonic_sort 2 KEYS=4
check 'every schedule of examples/c/heat.c, for 3 steps' always_prints_in_c heat 1 STEPS=3
check 'every schedule of examples/c/allocator.c, for 2 blocks' always_prints_in_c allocator 1 BLOCKS=2 ROUNDS=1
check 'every schedule of examples/c/allocator.c, for 1 block' always_prints_in_c allocator 1 BLOCKS=1 ROUNDS=2 HELD=1
check 'every schedule of examples/c/sieve.c, below 17' always_prints_in_c sieve 1 LIMIT=17
check 'every schedule of examples/c/histogram.c, for 12 numbers' always_prints_in_c histogram 1 NUMBERS=12 CHUNK=4
check 'every schedule of examples/c/nbody.c, for 3 bodies' always_prints_in_c nbody 1 BODIES=3 STEPS=1

# ---- memory

# A stack that overflows stops the processor with fault 6; a larger stack does not. The sum of 0 to 400 is 80,200, which
# is 0x13948.
overflows_a_stack() {
    local compiler ended
    printf '%s\n' 'static int depth(int n) { volatile int a[16]; a[n % 16] = n; return n == 0 ? 0 : depth(n - 1) + a[n % 16]; }' \
        'int main(void) { return depth(400); }' >"$room/deep.c"
    while read -r compiler; do
        make_c clean && cp "$room/deep.c" "$room/c" && make_c "$compiler" deep.elf || return 1
        ended=0
        ./ultra run --sweep --k 0 "$room/c/deep.elf" >"$room/out" 2>&1 || ended=$?
        [ "$ended" -eq 1 ] && grep ' fault 6 ' "$room/out" && rm "$room/c/deep.elf" && make_c "$compiler" deep.elf STACK_SIZE=64000 &&
            ./ultra run --sweep --k 0 "$room/c/deep.elf" | grep ' halt 48 ' || return 1
    done < <(compilers_of_c)
}
check 'a C program whose stack overflows stops with fault 6' overflows_a_stack

# One variable can take all 262,144 shared words. It takes no room in the image.
fills_shared_memory() {
    printf '#include "ultra.h"\nstatic SHARED(int) x[262144];\nint main(int n, int p) { (void)p; x[262143 - n] = 5; return 0; }\n' >"$room/big.c"
    make_c clean && cp "$room/big.c" "$room/c" && make_c big.elf SHARED_WORDS=262144 && [ "$(wc -c <"$room/c/big.elf")" -lt 4096 ] &&
        ./ultra run --sweep --k 1 --words 262144 "$room/c/big.elf" | grep '^word' |
        diff <(printf '%s\n' 'word 262142 00000005' 'word 262143 00000005') -
}
check 'a C program can have 262,144 shared words' fills_shared_memory

# ---- programs that are refused

# refuses_c TEXT SOURCE [WORD ..]: with each compiler, `make` refuses the program with TEXT in its message. SOURCE with
# `extern "C"` is C++.
refuses_c() {
    local text=$1 source=$2 compiler file
    shift 2
    file=$([[ $source = *'extern "C"'* ]] && echo bad.cc || echo bad.c)
    while read -r compiler; do
        make_c clean && rm -f "$room"/c/bad.* && printf '#include "ultra.h"\n%s\n' "$source" >"$room/c/$file" || return 1
        ! make_c "$compiler" bad.elf "$@" >"$room/out" 2>&1 && grep -F -- "$text" "$room/out" && [ ! -e "$room/c/bad.elf" ] ||
            { cat "$room/out" && return 1; }
    done < <(compilers_of_c)
    rm -f "$room"/c/bad.*
}
check 'the linker refuses constructors' \
    refuses_c 'constructors are not run' 'struct s { int v; s() { v = processor_number(); } } one; extern "C" int main(int, int) { return one.v; }'
check 'the linker refuses thread-local data' refuses_c 'no thread-local data' '__thread int x = 3; int main(void) { return x; }'
check 'the linker refuses an unknown section' \
    refuses_c .special '__attribute__((section(".special"))) volatile int x = 3; int main(void) { return x; }'
check 'the compiler refuses a shared variable with an initial value' refuses_c zero 'static SHARED(int) x = 5; int main(void) { return x; }'
check 'the compiler refuses a fetch-and-add of a byte' \
    refuses_c negative 'static SHARED(char) x; int main(void) { return fetch_and_add(&x, 1); }'
check 'make refuses compare-and-swap' \
    refuses_c 'it uses lr.w or sc.w, which this machine does not have (fault 1): use fetch_and_add and its kin in ultra.h, not compare-and-swap (ultra explain fault 1)' \
    'static SHARED(int) x; int main(void) { int e = 0; return __atomic_compare_exchange_n(&x, &e, 1, 0, 5, 5); }'
check 'the linker refuses too many shared variables' refuses_c 'need more words' 'static SHARED(int) x[2000]; int main(void) { return x[9]; }'
check 'the linker refuses a size of the stack that is not a multiple of 16' refuses_c 'multiple of 16' 'int main(void) { return 0; }' STACK_SIZE=100

# ---- a C library

# `printf` of picolibc prints on the console: `0 of 2` and `1 of 2`.
prints_by_picolibc() {
    make_c "GNU=$(command -v riscv64-unknown-elf-gcc)" clean picolibc/hello.elf && ./ultra run --k 1 "$room/c/picolibc/hello.elf" >"$room/out" &&
        diff <(printf '%s\n' 30206f662032 31206f662032) <(sed 's/.* //' "$room/out")
}
if [ -n "$(riscv64-unknown-elf-gcc --print-file-name=picolibc.specs 2>/dev/null | grep /)" ]; then
    check 'printf of picolibc prints on the console' prints_by_picolibc
else
    left_out 'printf of picolibc, because picolibc is not installed'
fi
