# shellcheck shell=bash
# Runs on threads. Each is repeated many times, since no two need take the same steps.

# agrees_once RUN STAGES IMAGE FILTER: a run on threads with --start RUN has a report that FILTER reduces to what
# $room/report has, and its trace replays to the same report. It has five minutes.
agrees_once() {
    local own=$room/threads.$1
    timeout 300 ./ultra run --k "$2" --start "$1" --trace "$own.trace" "$3" >"$own.out" 2>&1 || { echo "run $1: status $?" && cat "$own.out" && return 1; }
    diff "$room/report" <($4 "$own.out") && diff "$own.out" <(./ultra replay "$own.trace" "$3" 2>&1) || { echo "run $1" && return 1; }
    rm -f "$own.trace" "$own.out"
}

# agrees_on_threads RUNS STAGES IMAGE FILTER: RUNS such runs, as many side by side as there are processors. It stops at
# the first that fails.
agrees_on_threads() {
    local run job jobs=() most failed=0
    most=$(nproc)
    for ((run = 1; run <= $1 && failed == 0; run++)); do
        if [ "${#jobs[@]}" -eq "$most" ]; then
            wait "${jobs[0]}" || failed=1
            jobs=("${jobs[@]:1}")
        fi
        agrees_once "$run" "$2" "$3" "$4" &
        jobs+=("$!")
    done
    for job in "${jobs[@]}"; do wait "$job" || failed=1; done
    return "$failed"
}

# ---- runs without waits

adds_on_threads() {
    example_report $((1 << $2)) "$3" >"$room/report"
    agrees_on_threads "$1" "$2" "$room/example.elf" cat
}
check 'the example adds up on threads of 64 processors, in 20 runs' adds_on_threads 20 6 00001900
check 'the example adds up on threads of eight processors, in 200 runs' adds_on_threads 200 3 00000320
check 'the example adds up on a thread of one processor, in 200 runs' adds_on_threads 200 0 00000064

# More bytes for the console than its queue holds.
loses_no_byte() {
    printf '%s\n' ' addi x17, x0, 1' ' addi x10, x0, 65' ' addi x6, x0, 300' 'loop: ecall' ' addi x6, x6, -1' ' bne x6, x0, loop' \
        ' addi x17, x0, 0' ' addi x10, x0, 0' ' ecall' >"$room/bytes.s"
    echo "processor 0 pc 00010020 halt 00 retired 905 console $(printf '41%.0s' {1..300})" >"$room/report"
    assembles_to "$room/bytes.s" "$room/bytes.elf" && agrees_on_threads 20 0 "$room/bytes.elf" cat
}
check 'a console on threads loses no byte' loses_no_byte

# ---- processors that wait for each other

# The lines of a report for shared words, and the number of processors that have halted.
words_and_halts() {
    grep '^word' "$1"
    grep -c '^processor .* halt 00 ' "$1"
}

# ends_on_threads RUNS STAGES NAME: an algorithm whose processors wait for each other ends as worked out.
ends_on_threads() {
    { final_words "$3" "$2" && echo $((1 << $2)); } >"$room/report"
    agrees_on_threads "$1" "$2" "$room/$3.elf" words_and_halts
}
check 'the barrier ends as worked out by hand on threads of eight processors, in 200 runs' ends_on_threads 200 3 barrier
check 'the queue ends as worked out by hand on threads of eight processors, in 200 runs' ends_on_threads 200 3 queue

# ---- runs that do not end

# An instruction that jumps to itself adds a step to the log in each round. When the log is full there is no report and
# no trace.
fills_its_log() {
    rm -f "$room/none.trace"
    echo 'loop: jal x0, loop' >"$room/endless.s"
    assembles_to "$room/endless.s" "$room/endless.elf" &&
        ends 4 'ultra: L2' ./ultra run --k 0 --trace "$room/none.trace" "$room/endless.elf" && [ ! -e "$room/none.trace" ]
}
check 'a run on threads reports that its log is full: L2, status 4, and no trace' fills_its_log

# Sixty-four processors read a word again and again, and are stopped for a while, so that the run takes more than a
# second. On a terminal a line shows the progress and is erased before the fault is printed. With --quiet there is none.
shows_progress_of_a_run() {
    local ended=0 line='\\rultra: [0-9]+ rounds, [0-9]+ instructions retired\\x1b\[K' gone='\\r\\x1b\[K'
    local spent='ultra: budget\r\n  --unfinished prints where the processors stand\r\n'
    printf '%s\n' ' lui x5, 0x80000' 'loop: lw x6, 0(x5)' ' jal x0, loop' >"$room/reads.s"
    assembles_to "$room/reads.s" "$room/reads.elf" || return 1
    tests/tools/on_a_terminal.py 1.5 crates/ultra/out/ultra run --k 6 --budget 30000 "$room/reads.elf" >"$room/out" || ended=$?
    cat "$room/out"
    [ "$ended" -eq 4 ] && grep -Eqx "($line)+${gone}${spent//\\/\\\\}" "$room/out" || return 1
    ended=0
    tests/tools/on_a_terminal.py 1.5 crates/ultra/out/ultra run --quiet --k 6 --budget 30000 "$room/reads.elf" >"$room/out" || ended=$?
    [ "$ended" -eq 4 ] && diff <(printf '%s\n' "$spent") "$room/out"
}
if command -v python3 >/dev/null; then
    check 'on a terminal a line shows the progress of a run on threads, except with --quiet' shows_progress_of_a_run
else
    left_out 'a run on a terminal, because python3 is not installed'
fi
