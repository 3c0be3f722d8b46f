# shellcheck shell=bash
# `ultra run` by the sweep, and its reports; runs on threads have a file of their own. The image `example` adds to one
# word.

# ---- the example

check 'the example runs on one processor, by the sweep, and replays' runs_and_replays 1 00000064 --k 0 --sweep
check 'the example runs on two processors without combining, and replays' runs_and_replays 2 000000c8 --k 1 --b 0

# combines_more_often R: the example runs with up to R combinations of an entry of a queue, and the header of the trace
# says R.
combines_more_often() {
    runs_and_replays 4 00000190 --k 2 --r "$1" && runs_and_replays 4 00000190 --k 2 --r "$1" --sweep &&
        diff <(echo " 55 4c 54 52 02 02 04 04 0$1 00 00 00") <(od -An -v -tx1 -N12 "$room/example.trace")
}
check 'an entry of a queue is combined up to two times, and the header of the trace says so' combines_more_often 2
check 'an entry of a queue is combined up to three times, and the header of the trace says so' combines_more_often 3

# ---- algorithms

# ends_as_worked_out TEXT RECORDS MOST: on machines of 0 to MOST stages with wait buffers of RECORDS records, by the
# sweep, all processors halt, and the shared words are those that were worked out by hand.
ends_as_worked_out() {
    local k name=${1#examples/algorithms/} image=$room/${1##*/}
    name=${name%.s}
    image=${image%.s}.elf
    ./ultra asm "$1" "$image" || return 1
    for ((k = 0; k <= $3; k++)); do
        ./ultra run --sweep --k "$k" --b "$2" "$image" >"$room/out" 2>&1 || { cat "$room/out" && return 1; }
        diff <(final_words "$name" "$k") <(grep '^word' "$room/out") || return 1
        [ "$(grep -c '^processor .* halt 00 ' "$room/out")" -eq $((1 << k)) ] || return 1
    done
}
for it in examples/algorithms/{,wrong/}*.s; do
    check "$it ends as worked out by hand on 1 to 64 processors" ends_as_worked_out "$it" 4 6
    check "$it ends as worked out by hand on 1 to 16 processors without combining" ends_as_worked_out "$it" 0 4
done

# spends COMMAND ..: the command uses up its budget, prints nothing, and names the option that reports the run.
spends() {
    ends_with_code 4 budget '--unfinished prints where the processors stand' "$@"
}

# The waiting processors keep the queues of their module full, so the last one never arrives.
starves_a_barrier() {
    spends ./ultra run --sweep --k 5 --b 0 "$room/barrier.elf" &&
        ./ultra run --sweep --k 5 --b 1 "$room/barrier.elf" >"$room/out"
}
check 'without combining a barrier of 32 processors starves: budget, status 4' starves_a_barrier

# With long queues a reader's count arrives late, and the sweep finds a writer that has not seen it.
finds_a_writer() {
    local ended=0
    ./ultra run --sweep --k 5 --b 0 --c 16 "$room/readers_writers_one_look.elf" >"$room/out" 2>&1 || ended=$?
    [ "$ended" -eq 1 ] && grep ' fault 8 ' "$room/out" && ./ultra run --sweep --k 5 --b 0 --c 16 "$room/readers_writers.elf"
}
check 'with long queues the sweep finds that readers look only once' finds_a_writer

# count_steps_by_kind TRACE: its numbers of turns, moves of requests, services and moves of replies, and of all steps.
count_steps_by_kind() {
    od -An -v -tu1 -j12 -w12 "$1" | awk '{ count[$1]++ } END { print count[1] + 0, count[2] + 0, count[3] + 0, count[4] + 0, NR }'
}

# takes_steps_of_each_kind RECORDS NUMBERS: the hot spot on 64 processors with wait buffers of RECORDS records takes
# these numbers of steps.
takes_steps_of_each_kind() {
    ./ultra run --sweep --k 6 --b "$1" --trace "$room/hot_spot.trace" "$room/hot_spot.elf" >"$room/out" 2>&1 || { cat "$room/out" && return 1; }
    diff <(echo "$2") <(count_steps_by_kind "$room/hot_spot.trace")
}

# The figures of examples/algorithms/README.md. All references are to one word, so module 0 serves each.
combines_at_a_hot_spot() {
    takes_steps_of_each_kind 0 '51584 76800 12800 76800 217984' && takes_steps_of_each_kind 4 '51584 25200 200 12600 89584'
}
check 'a hot spot of 64 processors takes the steps that were worked out by hand, with combining and without' combines_at_a_hot_spot

# ---- what ends a run

reports_a_fault() {
    local ended=0
    ./ultra run --k 0 "$room/ebreak.elf" >"$room/out" 2>"$room/err" || ended=$?
    [ "$ended" -eq 1 ] && diff <(echo 'processor 0 pc 00010000 fault 8 retired 0 console -') "$room/out" && diff /dev/null "$room/err"
}
check 'a run reports the fault of a processor, with status 1' reports_a_fault

# A run whose budget is used up, in steps of the sweep or in rounds of a thread, leaves no report and no trace.
spends_its_budget() {
    rm -f "$room/none.trace"
    spends ./ultra run --sweep --budget 100 --trace "$room/none.trace" "$room/example.elf" &&
        spends ./ultra run --budget 100 --trace "$room/none.trace" "$room/example.elf" && [ ! -e "$room/none.trace" ]
}
check 'a run reports a used-up budget: budget, status 4, and no trace' spends_its_budget

# With --unfinished the report comes before the fault of the budget, and the trace, if there is one, replays to it.
reports_an_unfinished_run() {
    local how ended
    for how in '--sweep --no-log' "--sweep --trace $room/spent.trace" "--trace $room/spent.trace"; do
        ended=0
        # shellcheck disable=SC2086
        ./ultra run $how --unfinished --budget 100 "$room/example.elf" >"$room/spent" 2>"$room/err" || ended=$?
        [ "$ended" -eq 4 ] && diff <(echo 'ultra: budget') "$room/err" && grep '^processor 3 pc 000100.* run retired ' "$room/spent" || return 1
        [ ! -e "$room/spent.trace" ] || ./ultra replay "$room/spent.trace" "$room/example.elf" | diff "$room/spent" - || return 1
    done
}
check 'with --unfinished a run whose budget is used up is reported, and its trace replays to the report' reports_an_unfinished_run

# ---- without a log

# prints_the_same IMAGE OPTION ..: by the sweep, a run without a log prints, reports and ends as one with a log does.
prints_the_same() {
    local image=$1 with=0 without=0
    shift
    ./ultra run --sweep --budget 4000000 "$@" "$image" >"$room/with.out" 2>"$room/with.err" || with=$?
    ./ultra run --sweep --budget 4000000 --no-log "$@" "$image" >"$room/without.out" 2>"$room/without.err" || without=$?
    [ "$with" -eq "$without" ] && diff "$room/with.out" "$room/without.out" && diff "$room/with.err" "$room/without.err"
}

# Some of the programs end by a fault, and some never end.
examples_print_the_same() {
    local text k
    for text in examples/*.s examples/algorithms/{,wrong/}*.s examples/explore/*.s; do
        ./ultra asm "$text" "$room/same.elf" || return 1
        for k in 0 1 3; do
            prints_the_same "$room/same.elf" --k "$k" || { echo "$text with --k $k" && return 1; }
        done
    done
    prints_the_same "$room/hot_spot.elf" --k 6 --b 0 && prints_the_same "$room/barrier.elf" --k 5 --b 0
}
check 'a run without a log prints what one with a log prints, for each example' examples_print_the_same

# After five instructions, 2^21 + 3 times three, one of which multiplies by 2^16 + 1. The product of n of them is
# 1 + n * 2^16, modulo 2^32, so 3 * 2^16 + 1 is stored. That takes more steps than a log has room for.
takes_six_million_steps() {
    cat >"$room/multiplies.s" <<'END'
 lui x5, 0x200
 addi x5, x5, 3
 addi x6, x0, 1
 lui x7, 0x10
 addi x7, x7, 1
loop: mul x6, x6, x7
 addi x5, x5, -1
 bne x5, x0, loop
 lui x8, 0x80000
 sw x6, 0(x8)
 ecall
END
    ./ultra asm "$room/multiplies.s" "$room/multiplies.elf" &&
        spends ./ultra run --sweep --k 0 "$room/multiplies.elf" &&
        spends ./ultra run --sweep --no-log --k 0 --budget 6000000 "$room/multiplies.elf" &&
        ./ultra run --sweep --no-log --k 0 "$room/multiplies.elf" >"$room/out" 2>"$room/err" && diff /dev/null "$room/err" &&
        diff <(printf 'processor 0 pc 00010028 halt 00 retired %d console -\nword 0 00030001\n' $((5 + 3 * ((1 << 21) + 3) + 2))) "$room/out"
}
check 'a run without a log takes six million steps; with a log it reports a used-up budget' takes_six_million_steps

refuses_to_have_no_log() {
    local refusal='error: --no-log goes with --sweep, and not with --trace'
    ends 2 "$refusal" ./ultra run --no-log "$room/example.elf" &&
        ends 2 "$refusal" ./ultra run --sweep --no-log --trace "$room/none.trace" "$room/example.elf" && [ ! -e "$room/none.trace" ]
}
check 'a run without a log is refused on threads and with a trace, with status 2' refuses_to_have_no_log

# ---- machines that do not exist

lacks_room_for_replies() {
    ends 2 'ultra: K1' ./ultra run --r 3 --c 3 "$room/example.elf"
}
check 'a run refuses queues without room for the replies of three combinations: K1, status 2' lacks_room_for_replies

refuses_seven_stages() {
    local ended=0
    ./ultra run --k 7 "$room/example.elf" >"$room/out" 2>"$room/err" || ended=$?
    [ "$ended" -eq 2 ] && [ ! -s "$room/out" ] && grep "invalid value '7' for '--k <NUMBER>': 7 is not in 0..=6" "$room/err"
}
check 'a run refuses seven stages, with status 2' refuses_seven_stages

# ---- reports and traces that cannot be written

report_to_a_full_disk() {
    ./ultra run --k 0 "$room/example.elf" >/dev/full
}
check 'a run reports a full disk for its report: link, status 3' ends_with_code 3 link "standard output: $no_space_left" report_to_a_full_disk

refuses_a_trace_in_no_folder() {
    ends_with_code 3 X5 "$room/none/example.trace: $no_such_file" ./ultra run --trace "$room/none/example.trace" "$room/example.elf" &&
        printf 'done: jal x0, done\n' >"$room/done.s" && assembles_to "$room/done.s" "$room/done.elf" || return 1
    # Before the run, which no budget would end soon, and before a hunt.
    ends_with_code 3 X5 "$room/none/done.trace: $no_such_file" ./ultra run --budget 4000000000 --trace "$room/none/done.trace" "$room/done.elf" &&
        ends_with_code 3 X5 "$room/none/done-: $no_such_file" ./ultra hunt --runs 1000000 --trace "$room/none/done-" "$room/done.elf"
}
check 'a run reports a missing folder for its trace: X5, status 3' refuses_a_trace_in_no_folder

refuses_a_full_disk_for_a_trace() {
    ends_with_code 3 X5 "/dev/full: $no_space_left" ./ultra run --k 0 --trace /dev/full "$room/example.elf"
}
check 'a run reports a full disk for its trace: X5, status 3' refuses_a_full_disk_for_a_trace
