# shellcheck shell=bash
# `ultra hunt`: random runs of the algorithms, right and wrong.

# hunts NAME: runs an image 200 times on two processors, and leaves the different results in $room/hunt. The status is
# that of the command.
hunts() {
    ./ultra hunt --k 1 --runs 200 --budget 20000 --trace "$room/$1-" "$room/$1.elf" >"$room/hunt"
}

# ---- what they find

# All runs of a right algorithm end with the words that its page gives. Its processors halt at its last ecall.
finds_one_result() {
    local pc
    pc=$(./ultra dis "$room/$1.elf" | awk '$3 == "ecall" { pc = $1 } END { print pc }')
    ./ultra hunt --k 1 --runs 200 --budget 20000 --expect-one "$room/$1.elf" >"$room/hunt" && diff "$room/hunt" - <<END
runs 200 first 1 over
processor 0 pc $pc halt 00 console -
processor 1 pc $pc halt 00 console -
$(final_words "$1" 1)
END
}
for it in barrier readers_writers ticket_lock; do
    check "random runs of $it come to one result" finds_one_result "$it"
done

# In some runs of a wrong barrier both processors wait for ever, in the loop of two instructions at 0001007c, so the
# status is 5. Others end as runs of the right barrier do.
finds_endless_waits() {
    local ended=0
    hunts "$1" || ended=$?
    [ "$ended" -eq 5 ] &&
        grep -A 2 '^runs [0-9]* first [0-9]* budget$' "$room/hunt" | grep -A 1 -Ex 'processor 0 pc 000100(7c|80) run console -' |
        grep -Ex 'processor 1 pc 000100(7c|80) run console -' &&
        names_the_unfinished_runs "$1" && grep -A 4 ' over$' "$room/hunt" | tail -n 2 | diff - <(final_words "wrong/$1" 1)
}

# The last line names as many runs as came to results with `budget`, the first run to each of these among them. A hunt
# of the last of the named runs names it alone, and has status 5.
names_the_unfinished_runs() {
    local number ended=0
    tail -n 1 "$room/hunt" | grep -Ex 'unfinished( [0-9]+)+' | tr ' ' '\n' | sed 1d >"$room/unfinished"
    diff <(sed -n 's/^runs \([0-9]*\) .* budget$/\1/p' "$room/hunt" | awk '{ sum += $1 } END { print sum }') <(sort -u "$room/unfinished" | wc -l) &&
        diff /dev/null <(sed -n 's/^runs .* first \([0-9]*\) budget$/\1/p' "$room/hunt" | grep -vxFf "$room/unfinished") || return 1
    number=$(tail -n 1 "$room/unfinished")
    ./ultra hunt --k 1 --runs 1 --start "$number" --budget 20000 "$room/$1.elf" >"$room/again" || ended=$?
    [ "$ended" -eq 5 ] && grep -x "unfinished $number" "$room/again"
}

# hunts_on_threads NAME STATUS OPTION ..: on two and on seven threads a hunt prints, reports and writes what it does on
# one. It has several results.
hunts_on_threads() {
    local name=$1 status=$2 jobs ended
    shift 2
    rm -rf "$room/on" && mkdir "$room/on" || return 1
    for jobs in 1 2 7; do
        ended=0
        mkdir "$room/on/$jobs" || return 1
        ./ultra hunt --k 1 --jobs "$jobs" "$@" --trace "$room/on/$jobs/" "$room/$name.elf" \
            >"$room/on/$jobs/out" 2>"$room/on/$jobs/err" || ended=$?
        diff <(echo "$status") <(echo "$ended") && diff -r "$room/on/1" "$room/on/$jobs" || return 1
    done
    [ "$(grep -c '^runs ' "$room/on/1/out")" -gt 1 ] && [ -s "$room/on/1/1.trace" ]
}

# Both processors add 1 to word 0 by a load and a store, so that one of the adds may be lost. If one result is expected, the
# status is 6, unless word 0 is not observed.
expects_one_result() {
    local ended=0
    printf '%s\n' 'lui x5, 0x80000' 'lw x6, 0(x5)' 'addi x6, x6, 1' 'sw x6, 0(x5)' ecall >"$room/lost.s"
    ./ultra asm "$room/lost.s" "$room/lost.elf" && ./ultra hunt --k 1 --runs 50 "$room/lost.elf" >"$room/hunt" || return 1
    [ "$(grep -c '^runs ' "$room/hunt")" -eq 2 ] && grep -x 'word 0 00000001' "$room/hunt" && grep -x 'word 0 00000002' "$room/hunt" || return 1
    ./ultra hunt --k 1 --runs 50 --expect-one "$room/lost.elf" >"$room/again" || ended=$?
    [ "$ended" -eq 6 ] && diff "$room/hunt" "$room/again" &&
        ./ultra hunt --k 1 --runs 50 --expect-one --observe 1-9 "$room/lost.elf" | diff - <(
            echo 'runs 50 first 1 over' && printf 'processor %d pc 00010010 halt 00 console -\n' 0 1)
}
check 'if random runs come to two results and one is expected, the status is 6' expects_one_result
then_check 'random runs on several threads come to the results of one thread' hunts_on_threads lost 0 --runs 300
check 'random runs on several threads are unfinished as on one' hunts_on_threads barrier_phase_late 5 --runs 100 --budget 20000
check 'random runs on several threads find a fault as on one' hunts_on_threads readers_writers_one_look 1 --runs 100 --budget 20000

# ---- schedules

# Each schedule finds both results of the lost addition. A name that none has, and a depth without priorities, are
# refused.
takes_a_schedule() {
    local name
    printf '%s\n' 'lui x5, 0x80000' 'lw x6, 0(x5)' 'addi x6, x6, 1' 'sw x6, 0(x5)' ecall >"$room/lost.s"
    ./ultra asm "$room/lost.s" "$room/lost.elf" || return 1
    for name in random pct sweep-like; do
        ./ultra hunt --k 1 --runs 200 --schedule "$name" "$room/lost.elf" >"$room/hunt" || return 1
        [ "$(grep -c '^runs ' "$room/hunt")" -eq 2 ] && grep -x 'word 0 00000001' "$room/hunt" && grep -x 'word 0 00000002' "$room/hunt" || return 1
    done
    ends 2 "error: invalid value 'PCT' for '--schedule <NAME>': not random, pct or sweep-like" \
        ./ultra hunt --schedule PCT "$room/lost.elf" &&
        ends 2 'error: --depth goes with --schedule pct' ./ultra hunt --depth 3 "$room/lost.elf" &&
        ends 2 'error: --depth goes with --schedule pct' ./ultra hunt --schedule sweep-like --depth 3 "$room/lost.elf"
}
check 'random runs by each schedule find a lost addition' takes_a_schedule
computed_schedules() {
    tests/tools/schedules.py ./ultra "$room"
}
if command -v python3 >/dev/null; then
    check 'the turns of random runs are those that another program computes' computed_schedules
else
    left_out 'schedules that another program computes, because python3 is not installed'
fi

# The number of the first run of each result gives the result again, and its trace replays to it.
finds_again() {
    local runs number rest
    while read -r runs number rest; do
        ./ultra hunt --k 1 --runs 1 --start "$number" --budget 20000 "$room/$1.elf" | sed '/^unfinished /d' >"$room/again"
        diff <(sed -n "/^runs $runs first $number /,/^runs /p" "$room/hunt" | sed "1s/runs $runs /runs 1 /; 2,\${/^runs /d; /^unfinished /d}") "$room/again" || return 1
        diff <(sed 1d "$room/again") <(./ultra replay "$room/$1-$number.trace" "$room/$1.elf" | sed 's/ retired [0-9]*//') || return 1
    done < <(sed -n 's/^runs \([0-9]*\) first \([0-9]*\) .*/\1 \2/p' "$room/hunt")
}
for it in barrier_reset_late barrier_phase_late; do
    check "random runs of $it find that both processors wait for ever" finds_endless_waits "$it"
    then_check "each result of random runs of $it is found again by its number, and its trace replays" finds_again "$it"
done

# A reader of the wrong readers and writers stops with fault 8, which is ebreak.
finds_a_reader_that_stops() {
    local ended=0
    hunts readers_writers_one_look || ended=$?
    [ "$ended" -eq 1 ] && grep -x 'processor 1 pc 00010064 fault 8 console -' "$room/hunt"
}
check 'random runs of the wrong readers and writers find a reader that stops' finds_a_reader_that_stops
then_check 'each result of random runs of readers_writers_one_look is found again by its number, and its trace replays' finds_again readers_writers_one_look

# ---- traces

# If one file for a trace exists, even as a dangling link, no trace is written. With --overwrite each is written, as a
# whole.
keeps_a_trace_that_exists() {
    local last ended=0 sizes='--k 1 --runs 40 --budget 20000' elf=$room/barrier_reset_late.elf
    rm -rf "$room/first" "$room/second" && mkdir "$room/first" "$room/second" || return 1
    # shellcheck disable=SC2086
    ./ultra hunt $sizes --trace "$room/first/" "$elf" >"$room/hunt" || ended=$?
    last=$(sed -n 's/^runs [0-9]* first \([0-9]*\) .*/\1/p' "$room/hunt" | tail -n 1)
    [ "$ended" -eq 5 ] && [ "$last" -gt 1 ] && [ -s "$room/first/1.trace" ] && ln -s nowhere "$room/second/$last.trace" || return 1
    # shellcheck disable=SC2086
    ends 2 "error: $room/second/$last.trace exists: use --overwrite" ./ultra hunt $sizes --trace "$room/second/" "$elf" &&
        diff <(echo "$last.trace") <(ls "$room/second") && rm "$room/second/$last.trace" && printf '%5000s' '' >"$room/second/$last.trace" &&
        ./ultra hunt --overwrite $sizes --trace "$room/second/" "$elf" | diff "$room/hunt" - && diff -r "$room/first" "$room/second"
}
check 'if the trace of a random run exists, none is written without --overwrite' keeps_a_trace_that_exists

# ---- pages

# writes_pages NAME OPTION ..: with --page a hunt prints what it prints without it, and writes for each result the page of
# its first run, as `page` prints it for the run's trace: beside the trace or alone, and of an image from standard input.
# OPTIONs may be those of `page`, too, before --.
writes_pages() {
    local name=$1 named=() number ended=0 again=0
    shift
    while [ "$1" != -- ]; do named+=("$1") && shift; done
    shift
    rm -rf "$room/both" "$room/alone" && mkdir "$room/both" "$room/alone" || return 1
    ./ultra hunt "${named[@]}" "$@" "$room/$name.elf" >"$room/hunt" || again=$?
    ./ultra hunt "${named[@]}" "$@" --trace "$room/both/" --page "$room/both/" "$room/$name.elf" >"$room/out" || ended=$?
    diff "$room/hunt" "$room/out" && diff <(echo "$again") <(echo "$ended") && ended=0 || return 1
    ./ultra hunt "${named[@]}" "$@" --page "$room/alone/" - <"$room/$name.elf" >"$room/out" || ended=$?
    diff "$room/hunt" "$room/out" && diff <(echo "$again") <(echo "$ended") || return 1
    sed -n 's/^runs [0-9]* first \([0-9]*\) .*/\1/p' "$room/hunt" | sort >"$room/firsts"
    [ "$(wc -l <"$room/firsts")" -gt 1 ] && diff <(sed 's/$/.html/' "$room/firsts") <(ls "$room/alone" | sort) &&
        diff -r --exclude '*.trace' "$room/alone" "$room/both" || return 1
    while read -r number; do
        ./ultra page "${named[@]}" "$room/both/$number.trace" "$room/$name.elf" >"$room/page"
        cmp "$room/page" "$room/alone/$number.html" && [ "$(tail -n 1 "$room/page")" = '</html>' ] || return 1
    done <"$room/firsts"
}
check 'a hunt writes the page of each result, also beside its trace' writes_pages barrier_reset_late -- --k 1 --runs 40 --budget 20000
check 'a hunt writes pages of runs on a machine that combines twice, and that end with a fault' \
    writes_pages readers_writers_one_look -- --k 2 --r 2 --runs 30 --budget 20000

# The names of a file stand in the pages, too.
writes_pages_with_names() {
    ./ultra asm --symbols "$room/late.map" examples/algorithms/wrong/barrier_reset_late.s "$room/late.elf" &&
        writes_pages late --symbols "$room/late.map" -- --k 1 --runs 40 --budget 20000 &&
        grep -c '^[0-9a-f]\{8\} [0-9a-f]\{8\} ' "$room/page" | diff <(grep -c . "$room/late.map") -
}
check 'a hunt writes pages with names' writes_pages_with_names

# A run of 500,001 steps, of which a page has the last 500,000.
writes_a_page_of_many_steps() {
    local ended=0
    printf 'start: jal x0, start\n' >"$room/spin.s" && ./ultra asm "$room/spin.s" "$room/spin.elf" || return 1
    ./ultra hunt --k 0 --runs 1 --budget 500001 --trace "$room/spin" --page "$room/spin" "$room/spin.elf" >"$room/out" || ended=$?
    [ "$ended" -eq 5 ] && grep -x 'words 1024 steps 500000 from 1 of 500001 symbols 0' "$room/spin1.html" &&
        ./ultra page --from 1 "$room/spin1.trace" "$room/spin.elf" | cmp - "$room/spin1.html"
}
check 'of a run of more than 500,000 steps, a hunt writes a page of the last' writes_a_page_of_many_steps

# If one page exists, nothing is written. With --overwrite it is replaced, but not the image, nor the trace that the hunt
# has just written.
keeps_a_page_that_exists() {
    local hunt=(./ultra hunt --k 0 --runs 1)
    printf '%200000s' '' >"$room/kept1.html" && cp "$room/kept1.html" "$room/before" &&
        ends 2 "error: $room/kept1.html exists: use --overwrite" "${hunt[@]}" --page "$room/kept" "$room/three.elf" &&
        ends 2 "error: $room/kept1.html exists: use --overwrite" "${hunt[@]}" --trace "$room/kept" --page "$room/kept" "$room/three.elf" &&
        [ ! -e "$room/kept1.trace" ] && cmp "$room/before" "$room/kept1.html" &&
        "${hunt[@]}" --overwrite --trace "$room/kept" --page "$room/kept" "$room/three.elf" >"$room/out" &&
        ./ultra page "$room/kept1.trace" "$room/three.elf" | cmp - "$room/kept1.html" || return 1
    ends 2 "error: $room/kept1.trace exists: use --overwrite" "${hunt[@]}" --trace "$room/kept" --page "$room/kept" "$room/three.elf" &&
        cp "$room/three.elf" "$room/own1.html" &&
        ends_with_code 3 X5 "$room/own1.html: entity already exists" "${hunt[@]}" --overwrite --page "$room/own" "$room/own1.html" &&
        cmp "$room/three.elf" "$room/own1.html" && ln -s linked1.trace "$room/linked1.html" &&
        ends_with_code 3 X5 "$room/linked1.html: entity already exists" \
            "${hunt[@]}" --overwrite --trace "$room/linked" --page "$room/linked" "$room/three.elf" &&
        cmp "$room/kept1.trace" "$room/linked1.trace"
}
check 'if the page of a random run exists, none is written without --overwrite' keeps_a_page_that_exists

refuses_pages_of_a_hunt() {
    ends_with_code 3 X5 "$room/none/done-: $no_such_file" ./ultra hunt --runs 1000000 --page "$room/none/done-" "$room/three.elf" &&
        ln -s /dev/full "$room/full1.html" && ln -s /dev/full "$room/full1.trace" &&
        ends_with_code 3 X5 "$room/full1.html: $no_space_left" ./ultra hunt --overwrite --runs 1 --page "$room/full" "$room/three.elf" &&
        ends_with_code 3 X5 "$room/full1.trace: $no_space_left" ./ultra hunt --overwrite --runs 1 --trace "$room/full" --page "$room/fine" "$room/three.elf" &&
        [ ! -e "$room/fine1.html" ]
}
check 'a hunt reports a missing folder for its pages, and a page or a trace that cannot be written: X5, status 3' refuses_pages_of_a_hunt

# ---- progress

# On a terminal a line shows how many runs have ended, and is erased at the end. With --quiet there is none.
shows_progress_of_a_hunt() {
    local line='\\rultra: [0-9]+ runs, [0-9]+ a second, [0-9]+ results\\x1b\[K' gone='\\r\\x1b\[K'
    ./ultra asm examples/algorithms/wrong/barrier_reset_late.s "$room/watched.elf" || return 1
    tests/tools/on_a_terminal.py 1.5 crates/ultra/out/ultra hunt --k 1 --runs 3000 --budget 20000 "$room/watched.elf" >"$room/out"
    cat "$room/out"
    grep -Eqx "($line)+$gone" "$room/out" || return 1
    tests/tools/on_a_terminal.py 1.5 crates/ultra/out/ultra hunt --quiet --k 1 --runs 3000 --budget 20000 "$room/watched.elf" |
        diff <(echo) -
}
if command -v python3 >/dev/null; then
    check 'on a terminal a line shows the progress of a hunt' shows_progress_of_a_hunt
else
    left_out 'a hunt on a terminal, because python3 is not installed'
fi
