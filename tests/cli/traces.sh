# shellcheck shell=bash
# Traces, the commands that read them (`replay`, `order`, `story`, `stats`, `picture` and `trace`; page.sh has `page`), and `steps`.

# ---- the order

# The first check leaves a trace of 64 processors, which the next three read.
check 'the example runs on 64 processors, and replays' runs_and_replays 64 00001900 --k 6

# orders_its_adds COUNT WORD: the order of the example's trace has COUNT adds to word 0. Each finds the value that the
# one before it left, and the last leaves WORD.
orders_its_adds() {
    ./ultra order --word 0 "$room/example.trace" "$room/example.elf" >"$room/out" 2>&1 || { cat "$room/out" && return 1; }
    [ "$(grep -c ' amoadd.w ' "$room/out")" -eq "$1" ] &&
        awk -v end="$2" 'BEGIN { last = "00000000" } $(NF - 1) != last { print; exit 1 } { last = $NF } END { if (last != end) exit 1 }' "$room/out"
}
then_check 'in the order of its trace each add finds what the one before it left' orders_its_adds 6400 00001900

refuses_an_order_of_no_image() {
    ends_with_code 3 link "$room/none.elf: $no_such_file" ./ultra order "$room/example.trace" "$room/none.elf"
}
then_check 'order reports a missing image: link, status 3' refuses_an_order_of_no_image

# The reader of standard output ends after one line. Then the write fails: programs of the toolchain ignore SIGPIPE.
ends_with_its_reader() {
    local statuses
    ./ultra order "$room/example.trace" "$room/example.elf" 2>"$room/err" | head -1 >"$room/out"
    statuses=("${PIPESTATUS[@]}")
    echo "the statuses are ${statuses[*]}"
    diff <(printf 'ultra: link\n  standard output: Broken pipe (os error 32)\n') "$room/err" && [ "$(wc -l <"$room/out")" -eq 1 ] &&
        [ "${statuses[*]}" = '3 0' ]
}
then_check 'order reports that the reader of its output has ended: link, status 3' ends_with_its_reader

refuses_an_order_of_no_trace() {
    ends_with_code 3 link "$room/none.trace: $no_such_file" ./ultra order "$room/none.trace" "$room/example.elf"
}
check 'order reports a missing trace: link, status 3' refuses_an_order_of_no_trace

# Of a trace of two processors, processor 2 and word 16 of 16 are refused before the image is read. Processor 1 and word
# 15 are not.
refuses_numbers_out_of_range() {
    ./ultra run --k 1 --trace "$room/two.trace" "$room/example.elf" >"$room/out" 2>&1 || { cat "$room/out" && return 1; }
    ends 2 "error: invalid value '2' for '--processor <NUMBER>': 2 is not in 0..=1, the machine's processors" \
        ./ultra order --processor 2 "$room/two.trace" "$room/none.elf" &&
        ends 2 "error: invalid value '16' for '--word <NUMBER>': 16 is not in 0..=15, the machine's shared words (--words)" \
            ./ultra order --words 16 --word 16 "$room/two.trace" "$room/none.elf" &&
        ./ultra order --processor 1 --words 16 --word 15 "$room/two.trace" "$room/example.elf" >"$room/out" 2>"$room/err" && diff /dev/null "$room/err"
}
check 'order refuses a processor or a word that the machine does not have, with status 2' refuses_numbers_out_of_range

# ---- statistics and the story

# counts_a_hot_spot RECORDS LINE ..: the statistics of a run of the hot spot with wait buffers of RECORDS records have
# these lines.
counts_a_hot_spot() {
    local line
    ./ultra run --sweep --k 6 --b "$1" --trace "$room/hot_spot.trace" "$room/hot_spot.elf" >"$room/out" 2>&1 &&
        ./ultra stats "$room/hot_spot.trace" "$room/hot_spot.elf" >"$room/stats" || return 1
    shift
    for line in "$@"; do
        grep -Fx "$line" "$room/stats" || { echo "not found: $line"; return 1; }
    done
}

# The number of rounds that references take without wait buffers comes from a simulator that was written for this test alone.
prints_latencies_without_combining() {
    ./ultra run --sweep --k 6 --b 0 --trace "$room/alone.trace" "$room/hot_spot.elf" >"$room/out" 2>&1 &&
        ./ultra stats --latency "$room/alone.trace" "$room/hot_spot.elf" | grep -E '^latency (all|processor 0) ' |
        diff <(echo 'latency all references 12800 least 11 mean 38.91 greatest 7813 rounds' \
            8x4843 16x6427 32x1245 64x128 128x8 256x87 512x14 1024x14 2048x8 4096x26
            echo 'latency processor 0 references 200 least 11 mean 16.98 greatest 20 rounds 8x1 16x199') -
}
check 'with --latency the statistics of a hot spot show how long references wait without combining' prints_latencies_without_combining

# The table of examples/algorithms/README.md has the latencies of the hot spot on each number of stages, without wait buffers.
shows_latencies_by_stages() {
    local k
    for k in 0 1 2 3 4 5 6; do
        ./ultra run --sweep --k "$k" --b 0 --trace "$room/alone.trace" "$room/hot_spot.elf" >"$room/out" 2>&1 &&
            ./ultra stats --latency "$room/alone.trace" "$room/hot_spot.elf" |
            sed -n 's/^latency all .* mean \(.*\) greatest \(.*\) rounds .*/\1 \2/p' || return 1
    done >"$room/latencies"
    diff <(sed -n 's/^| `--b 0`, on average | //p; s/^| `--b 0`, at most | //p' examples/algorithms/README.md | tr -d ' ' | tr '|' '\n' | grep .) \
        <(cut -d ' ' -f 1 "$room/latencies" && cut -d ' ' -f 2 "$room/latencies")
}
check 'examples/algorithms/README.md has the latencies of the hot spot by stages' shows_latencies_by_stages

# As docs/COMMANDS.md says: without wait buffers each of the 12,800 references moves through six stages by itself.
# With buffers of four records, the requests of a round combine in pairs at each stage, so the module serves one for 64.
counts_what_combining_saves() {
    counts_a_hot_spot 0 'machine k 6 c 4 b 0 r 1' 'steps 217984 turns 51584 up 76800 serve 12800 down 76800 poke 0 rounds 13205' \
        'stage 0 up 12800 combined 0 down 12800 split 0 requests 2 records 0 replies 1' \
        'stage 5 up 12800 combined 0 down 12800 split 0 requests 4 records 0 replies 1' 'module 0 serves 12800 1x12800' &&
        counts_a_hot_spot 4 'machine k 6 c 4 b 4 r 1' 'steps 89584 turns 51584 up 25200 serve 200 down 12600 poke 0 rounds 2806' \
            'stage 0 up 6400 combined 6400 down 0 split 6400 requests 1 records 1 replies 1' \
            'stage 5 up 200 combined 200 down 0 split 200 requests 1 records 1 replies 1' 'module 0 serves 200 64x200'
}
check 'the statistics of a hot spot show what combining saves' counts_what_combining_saves

# With combining no reference of the hot spot waits. Its request goes up one stage a round, and is served in the round of
# its last move, the sixth. The reply leaves the last stage in that round, too, and goes down one stage a round: it is at
# its processor in the eleventh round, whose turns are over. So the processor takes it 11 rounds after that of the request.
prints_latencies_of_a_hot_spot() {
    ./ultra stats --latency "$room/hot_spot.trace" "$room/hot_spot.elf" | sed -n '/^latency/p' |
        diff <(echo 'latency all references 12800 least 11 mean 11.00 greatest 11 rounds 8x12800'
            for p in $(seq 0 63); do echo "latency processor $p references 200 least 11 mean 11.00 greatest 11 rounds 8x200"; done
            echo 'latency word 0 references 12800 least 11 mean 11.00 greatest 11 rounds 8x12800') -
}
then_check 'with --latency the statistics of a hot spot show that no reference waits' prints_latencies_of_a_hot_spot

# The story of the hot spot has a line for each step of its trace, in order. Each reference that is sent is served in
# one group, and retires.
tells_the_story_of_a_hot_spot() {
    ./ultra story "$room/hot_spot.trace" "$room/hot_spot.elf" >"$room/story" || return 1
    diff <(od -An -v -tu1 -j12 -w12 "$room/hot_spot.trace" |
        awk '{ print NR - 1, ($1 == 1 ? "turn " $2 : $1 == 2 ? "up " $2 " " $3 : $1 == 3 ? "serve " $2 : "down " $2 " " $3) ":" }') \
        <(sed 's/^\([^:]*:\).*/\1/' "$room/story") || return 1
    awk '$4 == "sends" { sent++ } $4 == "serves" { served += $5 } $4 == "retires" && / amoadd.w / { retired++ }
        END { print sent, served, retired; if (sent != 12800 || served != 12800 || retired != 6400) exit 1 }' "$room/story"
}
then_check 'the story of a hot spot has a line for each step, and each reference is served once' tells_the_story_of_a_hot_spot

# The marks of rounds stand between the lines of the story, and number the rounds that the statistics count.
marks_rounds() {
    ./ultra story "$room/hot_spot.trace" "$room/hot_spot.elf" >"$room/story" && ./ultra story --rounds "$room/hot_spot.trace" "$room/hot_spot.elf" >"$room/marked" &&
        diff <(grep -v '^round ' "$room/marked") "$room/story" && head -n 1 "$room/marked" | diff <(echo 'round 1') - || return 1
    diff <(seq "$(./ultra stats "$room/hot_spot.trace" "$room/hot_spot.elf" | sed -n 's/.* rounds //p')" | sed 's/^/round /') <(grep '^round ' "$room/marked")
}
then_check 'with --rounds a story marks the rounds that the statistics count' marks_rounds

# With --network a story has the lines of moves and services, and with other options those of them that these choose.
tells_of_the_network() {
    ./ultra story --network "$room/hot_spot.trace" "$room/hot_spot.elf" | diff <(grep -E '^[0-9]+ (up|down|serve) ' "$room/story") - &&
        ./ultra story --network --processor 3 --from 900 --to 9000 "$room/hot_spot.trace" "$room/hot_spot.elf" >"$room/chosen" && [ -s "$room/chosen" ] &&
        ./ultra story --processor 3 --from 900 --to 9000 "$room/hot_spot.trace" "$room/hot_spot.elf" | grep -E '^[0-9]+ (up|down|serve) ' | diff - "$room/chosen"
}
then_check 'with --network a story has only moves and services' tells_of_the_network

# has_the_longest_queues TRACE FILE: the statistics have the same longest queues as the story, and the same lengths at the ends of rounds.
has_the_longest_queues() {
    ./ultra story "$1" "$2" >"$room/story" && ./ultra stats --queues "$1" "$2" >"$room/stats" &&
        ./ultra stats --queues --csv "$1" "$2" >"$room/table" && tests/tools/queues.py "$room/story" "$room/stats" "$room/table"
}

# Runs of the hot spot by the sweep, also with short queues, and random runs of a program that refers to many words.
reports_the_longest_queues() {
    local sizes
    for sizes in '--k 6 --b 0' '--k 6 --b 4' '--k 5 --c 2 --b 1' '--k 3 --c 16 --b 0'; do
        # shellcheck disable=SC2086
        ./ultra run --sweep $sizes --trace "$room/long.trace" "$room/hot_spot.elf" >"$room/out" &&
            has_the_longest_queues "$room/long.trace" "$room/hot_spot.elf" || return 1
    done
    ./ultra asm examples/algorithms/queue.s "$room/queue.elf" || return 1
    for sizes in '--k 2 --start 1' '--k 3 --start 2' '--k 4 --start 3'; do
        rm -f "$room"/random*
        # shellcheck disable=SC2086
        ./ultra hunt $sizes --runs 1 --trace "$room/random" "$room/queue.elf" >"$room/out" || return 1
        has_the_longest_queues "$room"/random* "$room/queue.elf" || return 1
    done
}
check 'the longest queues of the statistics, and their lengths at the ends of rounds, are those of the story' reports_the_longest_queues

# Lengths of queues and latencies are not printed together.
refuses_queues_with_latencies() {
    ends 2 'error: --queues and --latency exclude each other' ./ultra stats --queues --latency "$room/hot_spot.trace" "$room/hot_spot.elf"
}
then_check 'statistics of queues and of latencies exclude each other, with status 2' refuses_queues_with_latencies

# has_the_latencies TRACE FILE: the statistics have the same latencies as the story.
has_the_latencies() {
    ./ultra story "$1" "$2" | tests/tools/latencies.py >"$room/latencies" && [ -s "$room/latencies" ] &&
        ./ultra stats --latency "$1" "$2" | grep '^latency' | diff "$room/latencies" -
}

# Runs of the hot spot without combining, by the sweep, in which requests wait, and random runs of a program that refers to
# many words.
reports_the_latencies() {
    local sizes
    for sizes in '--k 6 --b 0' '--k 4 --c 2 --b 1' '--k 0'; do
        # shellcheck disable=SC2086
        ./ultra run --sweep $sizes --trace "$room/long.trace" "$room/hot_spot.elf" >"$room/out" &&
            has_the_latencies "$room/long.trace" "$room/hot_spot.elf" || return 1
    done
    for sizes in '--k 2 --start 1' '--k 4 --start 3'; do
        rm -f "$room"/random*
        # shellcheck disable=SC2086
        ./ultra hunt $sizes --runs 1 --trace "$room/random" "$room/queue.elf" >"$room/out" || return 1
        has_the_latencies "$room"/random* "$room/queue.elf" || return 1
    done
}
then_check 'the latencies of the statistics are those of the story' reports_the_latencies

# chooses_lines TRACE FILE K: `order` and `story` print the lines of each processor, of words 0 and 9 and of ranges that
# awk and tests/tools/chosen.py choose among all lines.
chooses_lines() {
    local each range
    ./ultra order "$1" "$2" >"$room/whole.order" && ./ultra story "$1" "$2" >"$room/whole.story" || return 1
    for each in 'word 0' 'word 9' $(seq -f 'processor_%g' 0 $((2 ** $3 - 1))); do
        # shellcheck disable=SC2086
        set -- "$1" "$2" "$3" ${each/_/ }
        diff <(awk -v what="$4" -v n="$5" 'what == "processor" ? $2 == n : index($0 " ", " word " n " ")' "$room/whole.order") \
            <(./ultra order "--$4" "$5" "$1" "$2") &&
            diff <(tests/tools/chosen.py "$room/whole.story" "$room/whole.order" "$3" "$4" "$5") <(./ultra story "--$4" "$5" "$1" "$2") || return 1
    done
    for range in '0 0' '7 30' '30 7' '100 4294967295'; do
        set -- "$1" "$2" "$3" "${range% *}" "${range#* }"
        diff <(awk -v a="$4" -v b="$5" '$1 >= a && $1 <= b' "$room/whole.order") <(./ultra order --from "$4" --to "$5" "$1" "$2") &&
            diff <(awk -v a="$4" -v b="$5" '$1 >= a && $1 <= b' "$room/whole.story") <(./ultra story --from "$4" --to "$5" "$1" "$2") &&
            diff <(tests/tools/chosen.py "$room/whole.story" "$room/whole.order" "$3" processor 1 | awk -v a="$4" -v b="$5" '$1 >= a && $1 <= b') \
                <(./ultra story --to "$5" --processor 1 --from "$4" "$1" "$2") || return 1
    done
}

# Random runs of the queue, in which messages of several words meet, and a sweep of the hot spot, which combines all.
chooses_lines_of_runs() {
    ./ultra asm examples/algorithms/queue.s "$room/queue.elf" && rm -f "$room"/chosen* &&
        ./ultra hunt --k 2 --start 1 --runs 1 --trace "$room/chosen2-" "$room/queue.elf" >"$room/out" &&
        ./ultra hunt --k 3 --start 2 --r 3 --runs 1 --trace "$room/chosen3-" "$room/queue.elf" >"$room/out" &&
        chooses_lines "$room"/chosen2-* "$room/queue.elf" 2 && chooses_lines "$room"/chosen3-* "$room/queue.elf" 3 &&
        ./ultra run --sweep --k 3 --r 2 --trace "$room/chosen.trace" "$room/hot_spot.elf" >"$room/out" &&
        chooses_lines "$room/chosen.trace" "$room/hot_spot.elf" 3
}
check 'order and story print the lines that are chosen' chooses_lines_of_runs

# tells_values TRACE FILE: the functions and values of the story fit the values of shared words in the order.
tells_values() {
    ./ultra order "$1" "$2" >"$room/whole.order" && ./ultra story "$1" "$2" >"$room/whole.story" &&
        tests/tools/values.py "$room/whole.story" "$room/whole.order" >"$room/compared" || { cat "$room/compared" && return 1; }
}

# The runs above, and one in which all kinds of fetch-and-phi, loads, and stores of bytes meet at two words.
tells_values_of_runs() {
    cat >"$room/functions.s" <<'S'
# Each processor refers to words 0 and 1 with every kind of function.
start:  addi a7, x0, 2
        ecall
        lui s0, %hi(words)
        addi s0, s0, %lo(words)
        addi s1, a0, 3
        addi s2, x0, 6
again:  amoadd.w t0, s1, (s0)
        amoxor.w t0, s1, (s0)
        amomaxu.w t0, s1, (s0)
        amominu.w t0, s2, (s0)
        amoor.w t0, s1, (s0)
        amoand.w t0, s2, (s0)
        amoswap.w t0, s1, (s0)
        amomin.w t0, s2, (s0)
        amomax.w t0, s1, (s0)
        lw t0, 0(s0)
        sb s1, 1(s0)
        sh s1, 2(s0)
        sw s1, 0(s0)
        lbu t0, 3(s0)
        addi s0, s0, 4
        addi s2, s2, -3
        blt x0, s2, again
        addi a7, x0, 0
        ecall
.shared
words:  .word 0, 0
S
    ./ultra asm "$room/functions.s" "$room/functions.elf" && rm -f "$room"/met* &&
        ./ultra run --sweep --k 3 --r 3 --trace "$room/met.trace" "$room/functions.elf" >"$room/out" &&
        tells_values "$room/met.trace" "$room/functions.elf" &&
        ./ultra hunt --k 3 --r 3 --start 7 --runs 1 --trace "$room/met-" "$room/functions.elf" >"$room/out" &&
        tells_values "$room"/met-* "$room/functions.elf" && tells_values "$room"/chosen3-* "$room/queue.elf" &&
        tells_values "$room/chosen.trace" "$room/hot_spot.elf"
}
then_check 'the values of a story fit those of the order' tells_values_of_runs

# ---- pictures

# draws_each_step STAGES: the pictures of a short run after each of its steps are XML, and show what its story says, without
# names and with long ones.
draws_each_step() {
    local number steps
    printf '%s\n' '00010000 T start<of>the&short-program' '80000000 B a_counter_of_all_the_processors' >"$room/long.symbols"
    printf 'lui x5, 0x80000\naddi x6, x0, 1\namoadd.w x7, x6, (x5)\namoadd.w x7, x6, (x5)\necall\n' >"$room/short.s"
    ./ultra asm "$room/short.s" "$room/short.elf" &&
        ./ultra run --sweep --k "$1" --c 2 --trace "$room/short.trace" "$room/short.elf" >"$room/out" &&
        ./ultra story "$room/short.trace" "$room/short.elf" >"$room/short.story" || return 1
    rm -rf "$room/pictures" "$room/named" && mkdir "$room/pictures" "$room/named" && steps=$(wc -l <"$room/short.story") || return 1
    for ((number = 0; number <= steps; number++)); do
        ./ultra picture "$room/short.trace" "$room/short.elf" --step "$number" >"$room/pictures/$number.svg" &&
            ./ultra picture "$room/short.trace" "$room/short.elf" --step "$number" --symbols "$room/long.symbols" >"$room/named/$number.svg" || return 1
    done
    tests/tools/pictures.py "$room/short.story" "$room/pictures" && tests/tools/pictures.py "$room/short.story" "$room/named"
}
if command -v python3 >/dev/null; then
    for it in 0 1 2 3; do
        check "the pictures after each step of a run on $((1 << it)) processors show what its story says" draws_each_step "$it"
    done
else
    left_out 'pictures compared with a story, because python3 is not installed'
fi

refuses_a_picture_of_no_trace() {
    ends_with_code 3 link "$room/none.trace: $no_such_file" ./ultra picture "$room/none.trace" "$room/example.elf"
}
check 'picture reports a missing trace: link, status 3' refuses_a_picture_of_no_trace

# ---- texts of traces

# comes_back TRACE: the text of the trace says the trace, also with blanks, empty lines and comments put in.
comes_back() {
    ./ultra trace "$1" >"$room/text" && ./ultra steps "$room/text" "$room/back.trace" >"$room/out" && cmp "$1" "$room/back.trace" &&
        diff /dev/null "$room/out" && sed 's/ / \t/g; s/$/ # &/; 2~3G' "$room/text" | ./ultra steps - - | cmp "$1" -
}

# Saved traces, one of a run with r 2, and one of a session with writes to all places.
brings_traces_back() {
    local trace
    { echo 'set 0 5 89abcdef' && echo 'set 1 20 10000' && echo 'write 1 20000 01ff' && echo 'write 0 80000ffc 2a' && echo 'step 1' && echo quit; } |
        ./ultra debug --stdio --k 1 --trace "$room/pokes.trace" "$room/three.elf" >"$room/replies" &&
        ./ultra run --sweep --k 3 --r 2 --trace "$room/twice.trace" "$room/hot_spot.elf" >"$room/out" || return 1
    for trace in "$room/pokes.trace" "$room/twice.trace" examples/algorithms/wrong/*.trace; do
        comes_back "$trace" || { echo "$trace"; return 1; }
    done
    [ "$(./ultra trace "$room/pokes.trace" | grep -c '^poke ')" -ge 5 ]
}
check 'steps makes the same trace of the text that trace prints' brings_traces_back

prints_what_a_trace_has() {
    local trace
    for trace in "$room/pokes.trace" "$room/twice.trace" examples/algorithms/wrong/*.trace; do
        diff <(tests/tools/trace_text.py "$trace") <(./ultra trace "$trace") || { echo "$trace"; return 1; }
    done
}
if command -v python3 >/dev/null; then
    then_check 'trace prints what another reader of traces finds' prints_what_a_trace_has
else
    left_out 'texts of traces compared with another reader, because python3 is not installed'
fi

# refuses_steps CODE: the text on standard input is refused, and OUT stays as it was.
refuses_steps() {
    cat >"$room/refused.steps" && echo kept >"$room/kept" && ends_with_code 2 "$1" "$room/refused.steps" ./ultra steps "$room/refused.steps" "$room/kept" &&
        diff <(echo kept) "$room/kept"
}

# The last two texts have one step, and one byte, more than there may be.
refuses_wrong_steps() {
    local sizes='machine k 1 c 4 b 4 r 1'
    refuses_steps 'S1 line 1' </dev/null && refuses_steps 'S2 line 3' <<<"$sizes"$'\n\nturn' && refuses_steps 'S3 line 2' <<<"$sizes"$'\nturn 2' &&
        { echo "$sizes" && yes 'turn 1' | head -n 4194305; } | refuses_steps 'S4 line 4194306' &&
        head -c 268435457 /dev/zero | refuses_steps S5 && rm "$room/refused.steps"
}
check 'steps refuses each mistake and opens no OUT: S1 to S5, status 2' refuses_wrong_steps

# A text of 4,194,304 steps, in the time of a few seconds.
takes_all_steps() {
    { echo 'machine k 1 c 4 b 4 r 1' && yes 'up 0 1' | head -n 4194304; } >"$room/all.steps" &&
        timeout 20 ./ultra steps "$room/all.steps" "$room/all.trace" && timeout 20 ./ultra trace "$room/all.trace" | cmp "$room/all.steps" - &&
        rm "$room/all.steps" "$room/all.trace"
}
check 'steps and trace take as many steps as a trace has' takes_all_steps

overwrites_no_text() {
    echo 'machine k 1 c 4 b 4 r 1' >"$room/own.steps" && ln -sf own.steps "$room/other.steps" &&
        ends 2 'error: OUT is the same file as FILE' ./ultra steps "$room/own.steps" "$room/other.steps" && [ "$(cat "$room/own.steps")" ]
}
check 'steps refuses to overwrite its text, with status 2' overwrites_no_text

refuses_missing_files_of_texts() {
    ends_with_code 3 link "$room/none.steps: $no_such_file" ./ultra steps "$room/none.steps" "$room/none.trace" && [ ! -e "$room/none.trace" ] &&
        ends_with_code 3 link "$room/none.trace: $no_such_file" ./ultra trace "$room/none.trace" &&
        ends_with_code 3 X5 "$room: $is_a_folder" ./ultra trace "$room" &&
        ends_with_code 3 link "$room: $is_a_folder" ./ultra steps "$room" "$room/none.trace" &&
        echo 'machine k 1 c 4 b 4 r 1' >"$room/own.steps" &&
        ends_with_code 3 X5 "$room/none/out.trace: $no_such_file" ./ultra steps "$room/own.steps" "$room/none/out.trace"
}
check 'trace and steps report a missing file, and one that cannot be read or written: link or X5, status 3' refuses_missing_files_of_texts

# ---- traces of the wrong algorithms

# The saved trace of a wrong algorithm replays to its saved report and status.
fails_by_its_trace() {
    ./ultra asm "$1" "$room/wrong.elf" && diff "${1%.s}.out" <(with_status ./ultra replay "${1%.s}.trace" "$room/wrong.elf" 2>&1)
}
for it in examples/algorithms/wrong/*.s; do
    check "the trace of $it replays to its failure" fails_by_its_trace "$it"
done

# ---- traces that are refused

refuses_a_missing_trace() {
    ends_with_code 3 link "$room/none.trace: $no_such_file" ./ultra replay "$room/none.trace" "$room/example.elf"
}
check 'replay reports a missing trace: link, status 3' refuses_a_missing_trace

refuses_an_unreadable_trace() {
    ends_with_code 3 X5 "$room: $is_a_folder" ./ultra replay "$room" "$room/example.elf"
}
check 'replay reports a trace that cannot be read: X5, status 3' refuses_an_unreadable_trace

# Saves a trace of the example on two processors, unless there is one already.
saves_the_example() {
    [ -s "$room/example.trace" ] || ./ultra run --sweep --k 1 --trace "$room/example.trace" "$room/example.elf" >"$room/out"
}

refuses_a_cut_trace() {
    saves_the_example && head -c 23 "$room/example.trace" >"$room/cut.trace" &&
        ends_with_code 2 X1 "$room/cut.trace" ./ultra replay "$room/cut.trace" "$room/example.elf"
}
check 'replay refuses a trace that is cut off: X1, status 2' refuses_a_cut_trace

# With another image no processor sends a request, so the first step of a switch cannot be taken.
refuses_another_image() {
    local ended=0
    saves_the_example || return 1
    ./ultra replay "$room/example.trace" "$room/ebreak.elf" >"$room/out" 2>"$room/err" || ended=$?
    [ "$ended" -eq 2 ] && [ ! -s "$room/out" ] && grep -E '^ultra: X7 step [0-9]+$' "$room/err"
}
check 'replay refuses the trace of another image: X7 and its step, status 2' refuses_another_image

# A trace with a turn after the one in which the processor halts.
refuses_a_turn_too_many() {
    printf 'ecall\n' >"$room/ecall.s"
    printf 'ULTR\1\0\4\4\2\0\0\0\1\0\0\0\0\0\0\0\0\0\0\0\1\0\0\0\0\0\0\0\0\0\0\0' >"$room/turns.trace"
    assembles_to "$room/ecall.s" "$room/ecall.elf" &&
        ends_with_code 2 'X7 step 1' "$room/turns.trace" ./ultra replay "$room/turns.trace" "$room/ecall.elf"
}
check 'replay refuses a trace with a turn too many: X7 and its step, status 2' refuses_a_turn_too_many
