# shellcheck shell=bash
# `ultra explore`: every result of the programs of examples/explore, as worked out by hand and as found by another
# search; witnesses; and what is refused. HOW is `each` for a search that prints every result (--each), and `exchanged`
# for one that prints one result for all that differ by an exchange of processors.

# ---- results that were worked out

# result_line STATUS ..: one line with the statuses of the processors and the words of standard input.
result_line() {
    local status
    for status in "$@"; do printf '%s, ' "$status"; done
    awk '{ printf "%s, ", $0 } END { print "" }'
}

# all_halt COUNT: the line of a result in which COUNT processors halt with 00, with the words of standard input.
all_halt() {
    local p halts=()
    for ((p = 0; p < $1; p++)); do halts+=('halt 00'); done
    result_line "${halts[@]}"
}

# numbered_halts COUNT WORDS: the line of a result in which COUNT processors halt with their numbers, with the words of
# a file.
numbered_halts() {
    local p halts=()
    for ((p = 0; p < $1; p++)); do printf -v "halts[p]" 'halt %02x' "$p"; done
    result_line "${halts[@]}" <"$2"
}

# expected_results HOW NAME STAGES: the results of an example, worked out by hand. Each is a line that says how the
# processors stopped, what they printed, and which words they left.
expected_results() {
    local n=$((1 << $3)) i bits halts faults
    case $2 in
        lost_adds) for ((i = 1; i <= n; i++)); do word 0 "$i" | all_halt "$n"; done ;;
        ten_adds) for ((i = n == 1 ? 10 : 2; i <= 10 * n; i++)); do word 0 "$i" | all_halt "$n"; done ;;
        counter) word 0 $((3 * n)) | all_halt "$n" ;;
        neighbours) # each set of processors that see a 1, except the empty one
            for ((bits = 1; bits < 1 << n; bits++)); do
                halts=()
                for ((i = 0; i < n; i++)); do halts+=("halt 0$((bits >> i & 1))"); done
                for ((i = 0; i < n; i++)); do word "$i" 1; done | result_line "${halts[@]}"
            done
            ;;
        barrier | barrier_stuck) { word 1 $((2 * n)) && word 2 2; } | all_halt "$n" ;;
        barrier_one_round) { word 1 "$n" && word 2 1; } | all_halt "$n" ;;
        barrier_late) word 1 1 | all_halt "$n" ;;
        barrier_early | barrier_once) # each set of processors that are too early, except the set of all; or how many they are
            faults=()
            if [ "$1" = each ]; then
                for ((bits = 0; bits < (1 << n) - 1; bits++)); do faults+=("$bits"); done
            else # the ebreak is at the highest address, so the processors that stop there come last
                for ((i = 0; i < n; i++)); do faults+=($(((1 << i) - 1 << n - i))); done
            fi
            for bits in "${faults[@]}"; do
                halts=()
                for ((i = 0; i < n; i++)); do ((bits >> i & 1)) && halts+=('fault 8') || halts+=('halt 00'); done
                i=$([ "$2" = barrier_early ] && echo "$n" || echo $((2 * n)))
                { word 0 "$i" && word 1 "$i"; } | result_line "${halts[@]}"
            done
            ;;
        signal) all_halt "$n" </dev/null ;;
        peterson) # either writes word 2 last
            word 3 2 | all_halt 2
            { word 2 1 && word 3 2; } | all_halt 2
            ;;
        peterson_wrong) expected_results "$1" peterson 1 && word 3 1 | all_halt 2 && { word 2 1 && word 3 1; } | all_halt 2 ;;
        polite) word 2 2 | all_halt 2 ;;
        swap_lock) word 1 "$n" | all_halt "$n" ;;
        ticket_lock) for i in 0 1 2; do word "$i" "$n"; done | all_halt "$n" ;;
        ticket_lock_twice) for i in 0 1 2; do word "$i" $((2 * n)); done | all_halt "$n" ;;
        readers_writer) { word 2 1 && word 3 1; } | all_halt "$n" ;;
        self_scheduled) { word 0 $((6 + n)) && word 1 15; } | all_halt "$n" ;;
        shares) # one of two gets any of the six numbers, and the other the rest; if they are exchanged, processor 0 gets the first
            for ((bits = 0; bits < 64; bits++)); do
                [ "$1" = each ] || ((bits % 2 == 0)) || continue
                halts=('halt 00' 'halt 00')
                for ((i = 0; i < 6; i++)); do printf -v "halts[bits >> i & 1]" '%s 0%d' "${halts[bits >> i & 1]}" "$i"; done
                # A processor that printed nothing comes first.
                [ "$1" = each ] || ((bits != 0)) || halts=("${halts[1]}" "${halts[0]}")
                word 0 8 | result_line "${halts[@]}"
            done
            ;;
        queue) # two processors put in in either order, and take out in either order
            for i in 1 2; do
                { word 0 2 && word 1 2 && word 2 "$i" && word 3 $((3 - i)); } >"$room/words"
                result_line 'halt 01' 'halt 02' <"$room/words" && result_line 'halt 02' 'halt 01' <"$room/words"
            done
            ;;
        queue_lock) expected_results "$1" queue 1 ;;
        queue_wrong) # the same, or the first place is taken before its item is there
            expected_results "$1" queue 1
            { word 0 2 && word 1 2 && word 2 1 && word 3 2; } | result_line 'halt 02' 'halt 00'
            { word 0 2 && word 1 2 && word 2 2 && word 3 1; } | result_line 'halt 00' 'halt 01'
            ;;
        own_number) numbered_halts "$n" <(word 0 "$n") ;;
        own_ticket) # either of two processors gets the first ticket
            numbered_halts "$n" <(word 0 "$n" && word 1 "$n")
            [ "$1" = exchanged ] || { word 0 2 && word 1 2; } | result_line 'halt 01' 'halt 00'
            ;;
        *) return 1 ;;
    esac
}

# expected_classes HOW NAME STAGES: the line that says which processors of an example can be exchanged, if any can.
expected_classes() {
    local last=$(((1 << $3) - 1)) first=0
    case $2 in
        neighbours | own_number | peterson | peterson_wrong | polite | queue | queue_lock | queue_wrong) return ;;
        readers_writer | signal) first=1 ;;
    esac
    [ "$1" = each ] || [ "$first" -ge "$last" ] || echo "processors $first to $last can be exchanged"
}

# explores HOW WORD ..: `ultra explore`, with --each or with processors exchanged.
explores() {
    local options=()
    [ "$1" = exchanged ] || options=("--$1")
    shift
    ./ultra explore "${options[@]}" "$@"
}

# lines_of_results FILE: a line for each result in the file, without the pc of a processor.
lines_of_results() {
    awk '/^result / { if (line) print line; line = ""; next }
        /^processor / { gsub(/../, " &", $8); line = line $5 " " $6 ($8 == "-" ? "" : $8) ", " } /^word / { line = line $0 ", " }
        END { if (line) print line }' "$1"
}

# finds_each_result HOW NAME STAGES STATUS [STATES]: `ultra explore` prints the expected results and no others, each
# once, and the processors that can be exchanged. It ends with STATUS after it has found STATES states.
finds_each_result() {
    local ended=0
    ./ultra asm "examples/explore/$2.s" "$room/$2.elf" || return 1
    explores "$1" --k "$3" "$room/$2.elf" >"$room/results" 2>"$room/err" || ended=$?
    diff <(expected_results "$1" "$2" "$3" | sort) <(lines_of_results "$room/results" | sort) &&
        diff <(expected_results "$1" "$2" "$3" | wc -l) <(tail -n 2 "$room/results" | head -n 1 | sed 's/ results\{0,1\}, [0-9]* states\{0,1\}$//') &&
        diff <(expected_classes "$1" "$2" "$3") <(grep '^processors ' "$room/results") &&
        { [ -z "${5:-}" ] || grep -q ", $5 states$" "$room/results"; } &&
        diff <(echo "$4") <(echo "$ended") && diff /dev/null "$room/err"
}

# Joins the lines of a report to one line, without the counts of instructions.
as_one_line() {
    sed 's/ retired [0-9]*//' | tr '\n' '|'
}

# The same for reports that differ by an exchange of processors: without the numbers of processors, and sorted.
as_one_sorted_line() {
    sed 's/^processor [0-9]*/processor/; s/ retired [0-9]*//' | sort | tr '\n' '|'
}

# printed_result NUMBER: the lines of a result in $room/results, as one line.
printed_result() {
    awk -v number="$1" '/^result / { there = $2 == number; next } /^processors / || /^[0-9]* results?, / { there = 0 }
        there { printf "%s|", $0 }' "$room/results"
}

# has_the_end_of_the_sweep HOW NAME STAGES: the results in $room/results include the one with which the sweep ends; if
# processors are exchanged, up to their order.
has_the_end_of_the_sweep() {
    local number results join=as_one_line
    [ "$1" = each ] || join=as_one_sorted_line
    results=$(grep -c '^result ' "$room/results")
    ./ultra run --sweep --k "$3" "$room/$2.elf" >"$room/report" || return 1
    for ((number = 1; number <= results; number++)); do
        printed_result "$number" | tr '|' '\n' | "$join"
        echo
    done | grep -Fx "$("$join" <"$room/report")" >"$room/out"
}

# witnesses HOW NAME STAGES NUMBER STATUS OPTION ..: asked for a witness of result NUMBER, `ultra explore` prints
# $room/results again and ends with STATUS. The trace of the witness replays, to $room/report.
witnesses() {
    local how=$1 name=$2 stages=$3 number=$4 status=$5 ended=0
    shift 5
    rm -f "$room/witness"
    explores "$how" --k "$stages" --witness "$number" --trace "$room/witness" "$@" "$room/$name.elf" >"$room/out" 2>"$room/err" || ended=$?
    diff "$room/results" "$room/out" && diff /dev/null "$room/err" && diff <(echo "$status") <(echo "$ended") || return 1
    ended=0
    ./ultra replay "$room/witness" "$room/$name.elf" >"$room/report" || ended=$?
    [ "$ended" -le 1 ]
}

# replays_witnesses HOW NAME STAGES STATUS NUMBER ..: a witness of each of these results replays to the result, with the
# processors in the order in which they are printed.
replays_witnesses() {
    local how=$1 name=$2 stages=$3 status=$4 number
    shift 4
    for number in "$@"; do
        witnesses "$how" "$name" "$stages" "$number" "$status" && diff <(printed_result "$number") <(as_one_line <"$room/report") || return 1
    done
}

# replays_first_and_last HOW NAME STAGES STATUS: the same for the first and the last result.
replays_first_and_last() {
    replays_witnesses "$@" 1 "$(expected_results "$1" "$2" "$3" | wc -l)"
}

# witnesses_nothing HOW NAME STAGES NUMBER TEXT: a witness of NUMBER is refused with TEXT. Nothing else is printed, and
# no trace is opened.
witnesses_nothing() {
    rm -f "$room/witness"
    ends 2 "$5" explores "$1" --k "$3" --witness "$4" --trace "$room/witness" "$room/$2.elf" && [ ! -e "$room/witness" ]
}

# replays_each_witness HOW NAME STAGES STATUS: a witness of each result in $room/results replays to it, also without
# wait buffers and with the shortest queues. There is none of one number more.
replays_each_witness() {
    local number options results
    results=$(grep -c '^result ' "$room/results")
    for ((number = 1; number <= results; number++)); do
        for options in '' '--b 0' '--c 2 --b 1'; do
            # shellcheck disable=SC2086 # the options are words
            witnesses "$1" "$2" "$3" "$number" "$4" $options && diff <(printed_result "$number") <(as_one_line <"$room/report") || return 1
        done
    done
    [ "$number" -gt 1 ] && witnesses_nothing "$1" "$2" "$3" "$number" "error: there is no result $number"
}

# expected_deadlock NAME STAGES: the report of the first state from which no end can be reached, worked out by hand.
expected_deadlock() {
    local p last=$(((1 << $2) - 1))
    case $1 in
        signal) # processor 0 has set the word and taken it back, and no other has looked
            echo 'processor 0 pc 0001001c run console -'
            for ((p = 1; p <= last; p++)); do echo "processor $p pc 00010000 run console -"; done
            ;;
        barrier_late) # all are counted, one has let the others go, and none of them has looked
            for ((p = 0; p < last; p++)); do echo "processor $p pc 0001001c run console -"; done
            echo "processor $last pc 00010028 run console -"
            word 1 1
            ;;
    esac
}

# replays_to_a_deadlock HOW NAME STAGES: the witness of number 0, which is the deadlock, replays to that report.
replays_to_a_deadlock() {
    witnesses "$1" "$2" "$3" 0 1 && diff <(expected_deadlock "$2" "$3" | as_one_sorted_line) <(as_one_sorted_line <"$room/report") &&
        { [ "$2" != signal ] || grep '^processor 0 pc 0001001c ' "$room/report"; }
}

# checks_of_results HOW NAME STAGES STATUS STATES: registers the checks of a program whose results were worked out.
# Another program counted the states, except for those of the counter, which are 4^n.
checks_of_results() {
    local how=$1 name=$2 stages=$3 status=$4 states=$5 it
    it="examples/explore/$name.s on $((1 << stages)) processors$([ "$how" = each ] || echo ' up to exchanges')"
    check "the results of $it are those that were worked out by hand" \
        finds_each_result "$how" "$name" "$stages" "$status" "$states"
    case $name in # their sweeps may end at a fault, or not at all
        barrier_early | barrier_late | barrier_once | barrier_stuck | polite | signal) ;;
        *) then_check "the sweep of $it ends with one of the results" has_the_end_of_the_sweep "$how" "$name" "$stages" ;;
    esac
    if [ "$stages" -le 2 ]; then
        then_check "each result of $it has a witness that replays to it" replays_each_witness "$how" "$name" "$stages" "$status"
    else
        then_check "the first and the last result of $it have witnesses that replay to them" \
            replays_first_and_last "$how" "$name" "$stages" "$status"
    fi
    case $name in
        barrier_late | signal) then_check "the witness of the deadlock of $it replays to it" replays_to_a_deadlock "$how" "$name" "$stages" ;;
        barrier_stuck) then_check "the deadlock of $it has a witness that replays" witnesses "$how" "$name" "$stages" 0 1 ;;
        *) then_check "there is no witness of a deadlock of $it" witnesses_nothing "$how" "$name" "$stages" 0 'error: an end can be reached from each state' ;;
    esac
}

while read -r how name stages status states; do
    checks_of_results "$how" "$name" "$stages" "$status" "$states"
done <<'END'
each lost_adds 1 0 12
each lost_adds 2 0 330
each counter 2 0 256
each counter 3 0 65536
each neighbours 2 0
each barrier 1 0
each barrier 2 0 1645
each barrier_once 1 1
each barrier_stuck 1 1
each barrier_one_round 2 0
each barrier_early 2 1
each barrier_late 1 1
each signal 1 1
each signal 2 1
each peterson 1 0
each peterson_wrong 1 0
each polite 1 0
each swap_lock 2 0
each ticket_lock 2 0 624
each ticket_lock_twice 2 0 6513
each self_scheduled 2 0 2914
each shares 1 0
each readers_writer 2 0
each queue 1 0
each queue_lock 1 0
each queue_wrong 1 0
each own_number 2 0 16
each own_ticket 1 0
exchanged lost_adds 2 0 48
exchanged ten_adds 1 0 11446
exchanged lost_adds 3 0 1280
exchanged counter 4 0 969
exchanged counter 6 0 47905
exchanged neighbours 2 0
exchanged barrier 3 0 1497
exchanged barrier 4 0 21471
exchanged barrier_once 2 1
exchanged barrier_stuck 3 1
exchanged barrier_one_round 4 0 1122
exchanged barrier_one_round 5 0 7106
exchanged barrier_one_round 6 0 50050
exchanged barrier_early 4 1
exchanged barrier_early 6 1
exchanged barrier_late 3 1
exchanged barrier_late 6 1
exchanged signal 3 1
exchanged signal 6 1
exchanged peterson 1 0
exchanged swap_lock 4 0 65
exchanged swap_lock 6 0 257
exchanged ticket_lock 4 0 561
exchanged ticket_lock 6 0 8385
exchanged ticket_lock_twice 2 0 351
exchanged self_scheduled 4 0 959
exchanged self_scheduled 6 0 4031
exchanged shares 1 0
exchanged readers_writer 2 0
exchanged readers_writer 3 0
exchanged own_number 4 0 65536
exchanged own_ticket 4 0
exchanged own_ticket 6 0
END

# ---- witnesses

# The 16 results of examples/explore/barrier_early.s on 16 processors.
replays_results_of_16() {
    ./ultra asm examples/explore/barrier_early.s "$room/barrier_early.elf" || return 1
    ./ultra explore --k 4 "$room/barrier_early.elf" >"$room/results"
    replays_witnesses exchanged barrier_early 4 1 {1..16}
}
check 'each of the 16 results of 16 processors has a witness that replays to it as it is printed' replays_results_of_16

replays_numbers_of_64() {
    ./ultra asm examples/explore/own_ticket.s "$room/own_ticket.elf" && ./ultra explore --k 6 "$room/own_ticket.elf" >"$room/results" &&
        replays_each_witness exchanged own_ticket 6 0
}
check 'the result of 64 processors that halt with 64 numbers has a witness, with short queues too' replays_numbers_of_64

# A witness without a trace, a trace without a witness or --fair, a trace of a lasso that there is not, and a trace that
# would overwrite the image are refused, and no file is opened.
refuses_half_a_witness() {
    local half='error: --witness goes with --trace or --page, and these with --witness or --fair'
    cp "$room/counter.elf" "$room/same.elf"
    ends 2 "$half" ./ultra explore --witness 1 "$room/none.elf" && ends 2 "$half" ./ultra explore --trace "$room/witness" "$room/none.elf" &&
        ends 2 "$half" ./ultra explore --page "$room/witness" "$room/none.elf" &&
        ends 2 "$half" ./ultra explore --fair --witness 1 "$room/none.elf" &&
        ends 2 'error: no fair schedule is known that never ends' ./ultra explore --fair --trace "$room/witness" "$room/counter.elf" &&
        ends 2 'error: OUT is the same file as FILE' ./ultra explore --witness 1 --trace "$room/same.elf" "$room/same.elf" &&
        cmp "$room/counter.elf" "$room/same.elf" && [ ! -e "$room/witness" ] &&
        ends_with_code 3 X5 "$room/none/witness: $no_such_file" ./ultra explore --witness 1 --trace "$room/none/witness" "$room/counter.elf" &&
        ends_with_code 3 X5 "/dev/full: $no_space_left" ./ultra explore --witness 1 --trace /dev/full "$room/counter.elf"
}
check 'a witness without a trace, a trace without a witness and a trace over the image are refused, with status 2' refuses_half_a_witness

# Two polite processors raise their flags, see both up, and lower them, in step. The trace of the lasso has each of these
# references once. Each has then retired 12 instructions, and is about to try again, at 0x10030.
shows_a_lasso() {
    ./ultra asm examples/explore/polite.s "$room/polite.elf" &&
        ./ultra explore --fair --k 1 --trace "$room/lasso" "$room/polite.elf" >"$room/out" 2>"$room/err" &&
        diff <(printf '%s\n' 'some fair schedule never ends' stem 'cycle 0 1 0 1 0 1') <(tail -n 3 "$room/out") || return 1
    ./ultra replay "$room/lasso" "$room/polite.elf" >"$room/report"
    diff <(for p in 0 1; do echo "processor $p pc 00010030 run retired 12 console -"; done) "$room/report"
}
check 'the trace of a lasso has the references of its stem and of one turn round its cycle' shows_a_lasso

# The page of a witness and that of a lasso are those of their traces, beside them or alone, with names, also on a machine
# that combines twice and of an image from standard input.
writes_pages_of_searches() {
    local options named
    ./ultra asm --symbols "$room/polite.map" examples/explore/polite.s "$room/polite.elf" || return 1
    for options in --fair '--fair --r 2' '--witness 1' "--witness 1 --symbols $room/polite.map"; do
        rm -f "$room"/searched.*
        named=()
        [[ $options != *symbols* ]] || named=(--symbols "$room/polite.map")
        # shellcheck disable=SC2086 # the options are words
        ./ultra explore --k 1 $options --trace "$room/searched.trace" "$room/polite.elf" >"$room/results" &&
            ./ultra explore --k 1 $options --trace "$room/searched.again" --page "$room/searched.html" "$room/polite.elf" | diff "$room/results" - &&
            ./ultra explore --k 1 $options --page "$room/searched.alone" - <"$room/polite.elf" | diff "$room/results" - &&
            cmp "$room/searched.trace" "$room/searched.again" && cmp "$room/searched.html" "$room/searched.alone" || { echo "$options" && return 1; }
        ./ultra page "${named[@]}" "$room/searched.trace" "$room/polite.elf" | cmp - "$room/searched.html" ||
            { echo "$options" && return 1; }
    done
}
check 'explore writes the pages of a witness and of a lasso' writes_pages_of_searches

# With --every a witness or a trace is refused. Nothing else is printed, and no file is opened.
refuses_a_witness_of_every_size() {
    local options
    for options in '--witness 1' "--trace $room/witness" "--page $room/witness" "--witness 1 --trace $room/witness" "--witness 0 --each --trace $room/witness"; do
        # shellcheck disable=SC2086 # the options are words
        ends 2 'error: --every goes with none of --fair, --witness, --trace and --page' ./ultra explore --every $options "$room/counter.elf" &&
            [ ! -e "$room/witness" ] || { echo "$options" && return 1; }
    done
}
check 'a witness of every size is refused, with status 2' refuses_a_witness_of_every_size

# ---- observed words

# Of the queue on two processors, words 0 and 1 count the items; the items are in words 2 and 3, in either order. If only
# the counts are observed, there is one result for each order in which the items are taken out. A witness leads to one
# of the results that are printed as one, and there is none of one number more.
observes_the_counts_of_a_queue() {
    local number
    ./ultra asm examples/explore/queue.s "$room/queue.elf" && { word 0 2 && word 1 2; } >"$room/words" &&
        explores each --k 1 "$room/queue.elf" >"$room/all" && explores each --k 1 --observe 1,0 "$room/queue.elf" >"$room/results" &&
        diff <(for number in '01 02' '02 01'; do result_line "halt ${number% *}" "halt ${number#* }" <"$room/words"; done) \
            <(lines_of_results "$room/results" | sort) &&
        diff <(tail -n 2 "$room/all" | sed 's/^4 /2 /') <(tail -n 2 "$room/results") || return 1
    for number in 1 2; do
        witnesses each queue 1 "$number" 0 --observe 1,0 &&
            diff <(printed_result "$number") <(grep -v '^word [23] ' "$room/report" | as_one_line) || return 1
    done
    ends 2 'error: there is no result 3' ./ultra explore --each --k 1 --observe 0-1 --witness 3 --trace "$room/witness" "$room/queue.elf" &&
        ./ultra explore --every --states 100 --observe 0-1 "$room/queue.elf" 2>"$room/err" | grep '^k 1: 2 processors, 2 results, '
}
check 'the queue on two processors has two results by its counts alone, and each has a witness' observes_the_counts_of_a_queue

# Anything but numbers and ranges of the machine's words is refused, before a file is opened.
refuses_what_is_no_list() {
    local list command
    for command in explore hunt; do
        for list in '' ',' '0,' '0,,1' x 3-1 0-16 16 -- 1- 1-2-3 '1 2' 4294967296; do
            ends 2 "error: invalid value '$list' for '--observe <LIST>': not numbers and ranges in 0..=15, the machine's shared words (--words)" \
                ./ultra "$command" --words 16 "--observe=$list" "$room/none.elf" || { echo "$list" && return 1; }
        done
    done
}
check 'what is no list of the words of the machine is refused, with status 2' refuses_what_is_no_list

# ---- results compared with those of a specification

# compares STATUS MISSING NAME SPEC OPTION ..: `--against SPEC` prints those results of the list of --each whose lines without
# pc are not among SPEC's, and ends with STATUS. There are MISSING.
compares() {
    local status=$1 missing=$2 name=$3 spec=$4 ended=0 number all others verb=are
    shift 4
    ./ultra asm "examples/$name.s" "$room/program.elf" && ./ultra asm "examples/$spec.s" "$room/spec.elf" || return 1
    explores each "$@" "$room/spec.elf" >"$room/others"
    explores each "$@" "$room/program.elf" >"$room/results"
    ./ultra explore --against "$room/spec.elf" "$@" "$room/program.elf" >"$room/out" 2>"$room/err" || ended=$?
    lines_of_results "$room/others" >"$room/known"
    lines_of_results "$room/results" >"$room/lines"
    all="$(wc -l <"$room/lines") observed result$([ "$(wc -l <"$room/lines")" = 1 ] || echo s)"
    others=$(wc -l <"$room/known")
    [ "$([ "$missing" = 0 ] && echo "${all%% *}" || echo "$missing")" != 1 ] || verb=is
    {
        grep -nvxFf "$room/known" "$room/lines" | cut -d : -f 1 | while read -r number; do
            echo "result $number"
            printed_result "$number" | tr '|' '\n'
        done
        if [ "$missing" = 0 ]; then
            echo "all $all $verb among the $others of SPEC"
        else
            echo "$missing of $all $verb not among the $others of SPEC"
        fi
    } | diff - "$room/out" && diff /dev/null "$room/err" && diff <(echo "$status") <(echo "$ended") &&
        diff <(echo "$missing") <(grep -c '^result ' "$room/out")
}
while read -r status missing name spec options; do
    # shellcheck disable=SC2086 # the options are words
    check "of examples/$name.s, explore --against $options prints the $missing results that examples/$spec.s does not have" \
        compares "$status" "$missing" "$name" "$spec" $options
done <<'END'
0 0 explore/queue explore/queue_lock --k 1
0 0 explore/queue_lock explore/queue --k 1
1 2 explore/queue_wrong explore/queue_lock --k 1
1 2 explore/queue_wrong explore/queue_lock --k 1 --observe 0
0 0 explore/queue explore/queue_wrong --k 1
0 0 explore/queue_wrong explore/queue_wrong --k 1
1 2 explore/peterson_wrong explore/peterson --k 1
1 1 explore/peterson_wrong explore/peterson --k 1 --observe 3
0 0 explore/peterson_wrong explore/peterson --k 1 --observe 0-2
0 0 explore/own_number explore/own_ticket --k 1 --observe 0
1 1 explore/own_ticket explore/own_number --k 1 --observe 0
1 23 explore/own_ticket explore/own_number --k 2 --observe 0
1 1 explore/counter explore/lost_adds --k 1
1 2 explore/barrier_early explore/barrier_one_round --k 1 --observe 5
1 1 published/bounded_queue_wrong published/bounded_queue --k 1 --observe 4
END

# A comparison goes with no witness and not with every size. What is wrong with the specification is reported with its name.
refuses_a_specification() {
    local options
    ./ultra asm examples/explore/lost_adds.s "$room/lost.elf" || return 1
    for options in --every '--witness 1' "--trace $room/witness" "--page $room/witness"; do
        # shellcheck disable=SC2086 # the options are words
        ends 2 'error: --against goes with none of --every, --fair, --witness, --trace and --page' \
            ./ultra explore --against "$room/lost.elf" $options "$room/counter.elf" && [ ! -e "$room/witness" ] || { echo "$options" && return 1; }
    done
    ends 2 'error: standard input is asked for twice' ./ultra explore --against - - &&
        ends_with_code 3 link "$room/none.elf: $no_such_file" ./ultra explore --against "$room/none.elf" "$room/counter.elf" &&
        ends_with_code 3 I9 "$room: $is_a_folder" ./ultra explore --against "$room" "$room/counter.elf" &&
        head -c 51 "$room/counter.elf" >"$room/short.elf" &&
        ends_with_code 2 I1 "$room/short.elf" ./ultra explore --against "$room/short.elf" "$room/counter.elf" &&
        ends_with_code 4 states "$room/lost.elf" ./ultra explore --k 1 --states 12 --against "$room/lost.elf" "$room/ebreak.elf" &&
        ends 4 'ultra: states' ./ultra explore --k 1 --states 12 --against "$room/ebreak.elf" "$room/lost.elf"
}
check 'a comparison with a witness or with every size is refused, and what is wrong with the other image is reported' refuses_a_specification

# ---- every size

# size_line K RESULTS STATES SCHEDULES STATUS: the line for a size.
size_line() {
    local it counts=()
    for it in "processor:$((1 << $1))" "result:$2" "state:$3"; do
        counts+=("${it#*:} ${it%:*}$([ "${it#*:}" = 1 ] || echo s)")
    done
    echo "k $1: ${counts[0]}, ${counts[1]}, ${counts[2]}, $4, $5"
}

# A program whose processors add once each, on every size of the machine, as worked out by hand. --k changes nothing.
# With --each the larger sizes have too many states.
explores_every_size() {
    local k ended=0
    printf '%s\n' ' lui s2, 0x80000' ' addi s5, x0, 1' ' amoadd.w a0, s5, (s2)' ' addi a7, x0, 0' ' ecall' >"$room/once.s"
    assembles_to "$room/once.s" "$room/once.elf" || return 1
    for k in {0..6}; do size_line "$k" 1 $(((1 << k) + 1)) 'every schedule ends' "$(printf 'halt %02x' $(((1 << k) - 1)))"; done >"$room/lines"
    ./ultra explore --every "$room/once.elf" >"$room/out" 2>"$room/err" && diff "$room/lines" "$room/out" && diff /dev/null "$room/err" &&
        ./ultra explore --quiet --k 1 --every "$room/once.elf" | diff "$room/lines" - || return 1
    # Each processor has a ticket of its own: two have 5 states and 2 results, four have 65 and 24, and eight have 8!
    # results.
    {
        size_line 0 1 2 'every schedule ends' 'halt 00'
        size_line 1 2 5 'every schedule ends' 'halt 01'
        size_line 2 24 65 'every schedule ends' 'halt 03'
        for k in {3..6}; do echo "k $k: $((1 << k)) processors, not explored: states"; done
    } >"$room/lines"
    ./ultra explore --every --each --states 100 "$room/once.elf" >"$room/out" 2>"$room/err" || ended=$?
    diff "$room/lines" "$room/out" && diff <(printf 'ultra: states\n%.0s' {1..4}) "$room/err" && diff <(echo 4) <(echo "$ended")
}
check '--every prints each size as worked out by hand, and reports each that has too many states: states, status 4' explores_every_size

# A processor that counts alone for ever is reported for every size.
gives_up_every_size() {
    local k ended=0
    printf 'loop: addi x3, x3, 1\njal x0, loop\n' >"$room/count.s" && assembles_to "$room/count.s" "$room/count.elf" || return 1
    ./ultra explore --every "$room/count.elf" >"$room/out" 2>"$room/err" || ended=$?
    for k in {0..6}; do echo "k $k: $((1 << k)) processor$([ "$k" = 0 ] || echo s), not explored: alone"; done | diff - "$room/out" &&
        diff <(printf 'ultra: alone\n%.0s' {0..6}) "$room/err" && diff <(echo 4) <(echo "$ended")
}
check '--every reports a processor that goes on alone, for each size: alone, status 4' gives_up_every_size

# A processor that returns to an earlier state of its own never stops: that is a verdict.
finds_a_spinner() {
    local ended=0
    printf 'spin: jal x0, spin\n' >"$room/spin.s" && assembles_to "$room/spin.s" "$room/spin.elf" || return 1
    ./ultra explore --k 1 "$room/spin.elf" >"$room/out" 2>"$room/err" || ended=$?
    diff <(tail -n 1 "$room/out") <(echo 'from 1 state no end can be reached') && [ ! -s "$room/err" ] && diff <(echo 1) <(echo "$ended")
}
check 'a processor that never stops is a verdict, with status 1' finds_a_spinner

# ---- searches that are given up

# gives_up_with CODE RESULTS OPTION ..: a search that is given up reports CODE. Before that it prints so many results, and says that they are
# incomplete. Results come in the order of their discovery, so with those options the first lines of $room/full are the same.
gives_up_with() {
    local code=$1 results=$2 ended=0 lines
    shift 2
    ./ultra explore "$@" >"$room/out" 2>"$room/err" || ended=$?
    lines=$(($(wc -l <"$room/out") - 2))
    diff <(echo "ultra: $code") "$room/err" && diff <(echo 4) <(echo "$ended") &&
        diff <(tail -n 1 "$room/out") <(echo 'incomplete: there may be more results') &&
        tail -n 2 "$room/out" | head -n 1 | grep -Ex "$results results?, [0-9]+ states" &&
        diff <(seq "$results") <(sed -n 's/^result //p' "$room/out") &&
        diff <(head -n "$lines" "$room/full") <(head -n "$lines" "$room/out")
}

# A search that is given up says why, with its status. Four processors that add three times have 256 states; the end is the last. Two that add
# by a load and a store have 12 states; an end comes after four references, so more than five states come before it.
gives_up_exploring() {
    local ended=0
    ./ultra explore --each "$room/counter.elf" >"$room/full" || return 1
    gives_up_with states 0 --each --states 100 "$room/counter.elf" &&
        gives_up_with states 1 --each --states 256 "$room/counter.elf" &&
        ./ultra asm examples/explore/lost_adds.s "$room/lost_adds.elf" &&
        ./ultra explore --each --k 1 "$room/lost_adds.elf" >"$room/full" &&
        gives_up_with states 0 --each --k 1 --states 5 "$room/lost_adds.elf" &&
        gives_up_with states 2 --each --k 1 --states 12 "$room/lost_adds.elf" &&
        printf 'loop: addi x3, x3, 1\njal x0, loop\n' >"$room/count.s" && assembles_to "$room/count.s" "$room/count.elf" &&
        ends 4 'ultra: alone' ./ultra explore "$room/count.elf" || return 1
    ./ultra explore --k 7 "$room/counter.elf" >"$room/out" 2>"$room/err" || ended=$?
    [ "$ended" -eq 2 ] && [ ! -s "$room/out" ] && grep "invalid value '7' for '--k <NUMBER>': 7 is not in 0..=6" "$room/err"
}
check 'explore reports that it gives up: states or alone, status 4; and refuses too many processors, with status 2' gives_up_exploring

# Eight processors that take this lock twice have millions of states if none is exchanged.
gives_up_in_time() {
    local began=$SECONDS ended=0
    ./ultra asm examples/explore/ticket_lock_twice.s "$room/search.elf" || return 1
    ./ultra explore --seconds 1 --states 4294967295 --each --k 3 "$room/search.elf" >"$room/out" 2>"$room/err" || ended=$?
    diff <(echo 'ultra: budget') "$room/err" && diff <(echo 4) <(echo "$ended") && [ $((SECONDS - began)) -le 10 ] &&
        diff <(tail -n 1 "$room/out") <(echo 'incomplete: there may be more results') || return 1
    # A search that ends in time is complete.
    ./ultra explore --each "$room/counter.elf" >"$room/full" && ./ultra explore --each --seconds 100 "$room/counter.elf" >"$room/out" &&
        diff "$room/full" "$room/out"
}
check 'explore --seconds gives up in time, with what it has found: budget, status 4' gives_up_in_time

# ---- processors that can be exchanged

# exchanged_text NAME: a text of which some processors can be exchanged. Both `ultra` and the other search can read it.
exchanged_text() {
    case $1 in
        two_classes) # by the bits of 229: processors 0, 2, 5, 6 and 7 add 1, and 1, 3 and 4 add 0
            printf '%s\n' ' addi a7, x0, 2' ' ecall' ' addi t0, x0, 229' ' srl t0, t0, a0' ' addi t1, x0, 1' ' and a0, t0, t1' \
                ' lui s2, 0x80000' ' amoadd.w x0, a0, (s2)' ' addi a7, x0, 0' ' ecall'
            ;;
        some_stop) # processors 3 to 7 halt without a reference
            printf '%s\n' ' addi a7, x0, 2' ' ecall' ' addi t0, x0, 3' ' bgeu a0, t0, done' ' lui s2, 0x80000' ' addi s5, x0, 1' \
                ' amoadd.w t0, s5, (s2)' ' amoadd.w x0, t0, (s2)' 'done: addi a7, x0, 0' ' addi a0, x0, 7' ' ecall'
            ;;
        last_stops) # the last to add comes to the ebreak, which is before the halt of the others
            printf '%s\n' ' addi a7, x0, 3' ' ecall' ' addi s1, a0, -1' ' lui s2, 0x80000' ' addi s5, x0, 1' ' amoadd.w t0, s5, (s2)' \
                ' bne t0, s1, done' ' ebreak' 'done: addi a7, x0, 0' ' addi a0, x0, 0' ' ecall'
            ;;
        counts_down) # processors halt with 00, ff, fe and so on
            printf '%s\n' ' lui s2, 0x80000' ' addi s5, x0, -1' ' addi a7, x0, 1' ' amoadd.w a0, s5, (s2)' ' ecall' ' addi a7, x0, 0' ' ecall'
            ;;
        one_asks) # the third to add asks for its own number
            printf '%s\n' ' lui s2, 0x80000' ' addi s5, x0, 1' ' addi s6, x0, 2' ' amoadd.w a0, s5, (s2)' ' addi a7, x0, 0' ' bne a0, s6, done' \
                ' addi a7, x0, 2' ' ecall' ' addi a7, x0, 0' 'done: ecall'
            ;;
    esac
}

# A fault stops one of 64 processors. It is printed first, since its pc is the lowest.
finds_a_fault_in_one_of_64() {
    local p ended=0
    exchanged_text last_stops >"$room/last_stops.s" && assembles_to "$room/last_stops.s" "$room/last_stops.elf" || return 1
    ./ultra explore --k 6 "$room/last_stops.elf" >"$room/results" 2>"$room/err" || ended=$?
    {
        printf '%s\n' 'result 1' 'processor 0 pc 0001001c fault 8 console -'
        for ((p = 1; p < 64; p++)); do echo "processor $p pc 00010028 halt 00 console -"; done
        word 0 64
        printf '%s\n' 'processors 0 to 63 can be exchanged' '1 result, 65 states' 'every schedule ends'
    } | diff - "$room/results" && diff /dev/null "$room/err" && diff <(echo 1) <(echo "$ended") && replays_witnesses exchanged last_stops 6 1 1
}
check 'a fault in one of 64 processors makes one result, in which the processor comes first' finds_a_fault_in_one_of_64

# Four processors add 1 to the first and to the last word, twelve times each. The words have 200 different values or more
# on the way. So many lists of all 262,144 words would take more memory than there is.
explores_the_last_word() {
    cat >"$room/last_word.s" <<'END'
start: lui s2, 0x80000
 lui s3, 0x80100
 addi s3, s3, -4
 addi s4, x0, 12
 addi s5, x0, 1
round: amoadd.w x0, s5, (s2)
 amoadd.w x0, s5, (s3)
 addi s4, s4, -1
 bne s4, x0, round
 addi a7, x0, 0
 addi a0, x0, 0
 ecall
END
    ./ultra asm "$room/last_word.s" "$room/last_word.elf" &&
        (ulimit -v 131072 && crates/ultra/out/ultra explore --k 2 --words 262144 "$room/last_word.elf") >"$room/found" &&
        diff <(word 0 48 && word 262143 48) <(grep '^word ' "$room/found") && grep -x '1 result, 20475 states' "$room/found"
}
check 'a program that uses the first and the last of 262,144 words, in little memory' explores_the_last_word

# If a processor asks for its own number after a reference, no processors are exchanged.
exchanges_none_if_one_asks() {
    local stages
    ./ultra asm examples/explore/own_number.s "$room/own_number.elf" && exchanged_text one_asks >"$room/one_asks.s" &&
        assembles_to "$room/one_asks.s" "$room/one_asks.elf" || return 1
    for stages in own_number:3 own_number:4 one_asks:2 one_asks:3; do
        ./ultra explore --k "${stages#*:}" "$room/${stages%:*}.elf" >"$room/found" &&
            ./ultra explore --each --k "${stages#*:}" "$room/${stages%:*}.elf" >"$room/each" && diff "$room/each" "$room/found" &&
            ! grep '^processors ' "$room/found" || { echo "$stages" && return 1; }
    done
    # Of two processors none is the third to add, so none asks.
    ./ultra explore --k 1 "$room/one_asks.elf" | grep -x 'processors 0 to 1 can be exchanged'
}
check 'no processors are exchanged if one asks for its own number after a reference' exchanges_none_if_one_asks

# ---- what another search finds

if ! command -v python3 >/dev/null; then
    left_out 'another search of every result, because python3 is not installed'
    return
fi

# On a terminal a line shows how many states were found, and is erased at the end. With --quiet there is none.
shows_progress_of_a_search() {
    local ended=0 line='\\rultra: [0-9]+ states, [0-9]+ a second\\x1b\[K' gone='\\r\\x1b\[K'
    # Without an exchange, eight processors that take this lock twice have more states than --states allows.
    ./ultra asm examples/explore/ticket_lock_twice.s "$room/search.elf" || return 1
    tests/tools/on_a_terminal.py 1.5 crates/ultra/out/ultra explore --each --k 3 --states 2500000 "$room/search.elf" >"$room/out" || ended=$?
    cat "$room/out"
    [ "$ended" -eq 4 ] && grep -Eqx "($line)+${gone}ultra: states\\\\r\\\\n" "$room/out" || return 1
    ended=0
    tests/tools/on_a_terminal.py 1.5 crates/ultra/out/ultra explore --each --quiet --k 3 --states 2500000 "$room/search.elf" >"$room/out" || ended=$?
    [ "$ended" -eq 4 ] && diff <(printf '%s\n' 'ultra: states\r\n') "$room/out"
}
check 'on a terminal a line shows the progress of a search' shows_progress_of_a_search

# finds_what_another_search_finds TEXT OPTION ..: with these options `ultra explore` prints the same as
# tests/tools/every_result.py, an independent search: the results in their order, the processors that can be exchanged,
# the number of states, and whether schedules, or fair ones, end; or a line for each size. A lasso is right by its moves. The faults and the
# status are the same too.
finds_what_another_search_finds() {
    local text=$1 ended=0 status=0
    shift
    ./ultra asm "$text" "$room/searched.elf" || return 1
    ./ultra explore "$@" "$room/searched.elf" >"$room/results" 2>"$room/err" || ended=$?
    # The other search takes the number of stages without --k.
    [ "$1" != --k ] || shift
    python3 tests/tools/every_result.py "$text" "$@" --shown "$room/results" >"$room/out" 2>"$room/said" || status=$?
    diff "$room/out" "$room/results" && diff "$room/said" "$room/err" && diff <(echo "$status") <(echo "$ended")
}
while read -r name options; do
    # shellcheck disable=SC2086 # the options are words
    check "ultra explore $options prints for examples/explore/$name.s what another search finds" \
        finds_what_another_search_finds "examples/explore/$name.s" $options
done <<'END'
lost_adds --k 2 --each
ten_adds --k 1
counter --k 2 --each
neighbours --k 2 --each
barrier --k 2 --each
barrier_once --k 1 --each
barrier_once --k 2 --each
barrier_stuck --k 1 --each
barrier_stuck --k 2 --each
barrier_early --k 2 --each
barrier_late --k 2 --each
signal --k 2 --each
peterson --k 1 --each
peterson_wrong --k 1 --each
polite --k 1 --each
swap_lock --k 2 --each
ticket_lock --k 2 --each
ticket_lock_twice --k 2 --each
self_scheduled --k 2 --each
shares --k 1 --each
readers_writer --k 2 --each
queue --k 2 --each
own_number --k 2 --each
own_ticket --k 2 --each
lost_adds --k 2 --fair
barrier --k 1 --fair
barrier_stuck --k 1 --fair
signal --k 2 --fair
peterson --k 1 --fair
polite --k 1 --fair
swap_lock --k 2 --fair
ticket_lock --k 2 --fair
readers_writer --k 2 --fair
lost_adds --k 2
lost_adds --k 3
counter --k 5
neighbours --k 2
barrier --k 3
barrier --k 4
barrier_once --k 1
barrier_once --k 2
barrier_once --k 3
barrier_stuck --k 3
barrier_one_round --k 5
barrier_early --k 4
barrier_early --k 5
barrier_late --k 5
signal --k 6
peterson --k 1
peterson_wrong --k 1
polite --k 1
swap_lock --k 6
ticket_lock --k 5
ticket_lock_twice --k 3
self_scheduled --k 6
shares --k 1
shares --k 2
shares --k 3
readers_writer --k 2
readers_writer --k 3
queue --k 2
own_number --k 3
own_ticket --k 6
counter --every --states 10000
barrier_early --every --states 10000
barrier_stuck --every --states 10000
own_number --every --states 10000
lost_adds --every --each --states 1000
END

# exchanges_as_another_search NAME STAGES LINES: the same for a text of exchanged_text, and LINES say which processors
# can be exchanged.
exchanges_as_another_search() {
    exchanged_text "$1" >"$room/$1.s" && finds_what_another_search_finds "$room/$1.s" --k "$2" --each &&
        finds_what_another_search_finds "$room/$1.s" --k "$2" && diff <(printf %b "$3") <(grep '^processors ' "$room/results")
}
while read -r name stages lines; do
    check "ultra explore prints for the text $name on $((1 << stages)) processors what another search finds" \
        exchanges_as_another_search "$name" "$stages" "$lines"
done <<'END'
two_classes 3 processors 0, 2, 5 to 7 can be exchanged\nprocessors 1, 3 to 4 can be exchanged\n
two_classes 1
some_stop 3 processors 0 to 2 can be exchanged\nprocessors 3 to 7 can be exchanged\n
some_stop 2 processors 0 to 2 can be exchanged\n
last_stops 3 processors 0 to 7 can be exchanged\n
counts_down 3 processors 0 to 7 can be exchanged\n
one_asks 1 processors 0 to 1 can be exchanged\n
one_asks 2
END

# stands_for_each_result NAME STAGES: the results of an example with processors exchanged stand for those with --each.
stands_for_each_result() {
    ./ultra asm "examples/explore/$1.s" "$room/$1.elf" || return 1
    ./ultra explore --k "$2" "$room/$1.elf" >"$room/found" || [ $? = 1 ] || return 1
    ./ultra explore --each --k "$2" "$room/$1.elf" >"$room/each" || [ $? = 1 ] || return 1
    tests/tools/exchanged.py "$room/found" "$room/each"
}
while read -r name stages; do
    check "the results of examples/explore/$name.s up to exchanges stand for those of --each on $((1 << stages)) processors" \
        stands_for_each_result "$name" "$stages"
done <<'END'
lost_adds 2
barrier_once 2
barrier_early 3
neighbours 3
shares 1
shares 2
queue 2
own_ticket 2
signal 3
readers_writer 2
END
