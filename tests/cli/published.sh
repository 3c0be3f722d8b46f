# shellcheck shell=bash
# The algorithms of examples/published. The right ones have the one result that their invariants give; the wrong ones,
# what an independent search finds; and each command of the folder's page prints what the page says.

# ---- the right ones

# published_words NAME STAGES: the lines for the words with which a right algorithm ends, worked out by hand from what it
# counts, without the words that depend on the schedule.
published_words() {
    local n=$((1 << $2)) processor round
    case $1 in
        lamport_mutex | mcs_lock | philosophers) word 0 "$n" ;;
        bakery) ;;
        clh_lock) word 0 $((2 * n)) ;;
        dissemination_barrier) # the second set of flags was used once, and the first twice, for 1 and for 0
            word 0 $((3 * n))
            for ((round = 0; round < $2; round++)); do
                for ((processor = 0; processor < n; processor++)); do word $((448 + 64 * round + processor)) 1; done
            done
            ;;
        bounded_queue) # the two cells were filled and emptied n times together, each half of them
            word 2 "$n" && word 3 "$n" && word 4 $((n * (n + 1) / 2)) && word 8 $((n == 1 ? 2 : n))
            [ "$n" -eq 1 ] || word 10 "$n"
            ;;
        readers_writers) word 2 $(((n + 1) / 2)) && word 3 $(((n + 1) / 2)) ;;
        *) return 1 ;;
    esac
}

# finds_the_published_result NAME STAGES OPTION ..: with these options there is one result: all halt with 00, and the words are
# the above. On several processors some wait, so not every schedule ends.
finds_the_published_result() {
    local name=$1 stages=$2 verdict='some schedule never ends; an end can always be reached'
    shift 2
    [ "$stages" -gt 0 ] || verdict='every schedule ends'
    ./ultra asm "examples/published/$name.s" "$room/$name.elf" &&
        ./ultra explore --k "$stages" "$@" "$room/$name.elf" >"$room/results" &&
        diff <(published_words "$name" "$stages" | all_halt $((1 << stages))) <(lines_of_results "$room/results") &&
        diff <(echo "$verdict") <(tail -n 1 "$room/results")
}
while read -r name stages options; do
    # shellcheck disable=SC2086 # the options are words
    check "examples/published/$name.s with --k $stages has the result that was worked out by hand" \
        finds_the_published_result "$name" "$stages" $options
done <<'END'
lamport_mutex 0 --observe 0
lamport_mutex 1 --observe 0
lamport_mutex 2 --observe 0
bakery 0
bakery 1
mcs_lock 0
mcs_lock 1
mcs_lock 2
clh_lock 0 --observe 0
clh_lock 1 --observe 0
clh_lock 2 --observe 0
dissemination_barrier 0
dissemination_barrier 1
dissemination_barrier 2
bounded_queue 0
bounded_queue 1
bounded_queue 2
philosophers 1
philosophers 2
philosophers 3
readers_writers 0
readers_writers 1
readers_writers 2
readers_writers 3
END

# ---- the wrong ones

# differs_in_a_few_lines NAME: the wrong text says where it is wrong, and leaves out or changes four lines of the right one at
# most, apart from comments.
differs_in_a_few_lines() {
    local path=examples/published/$1
    grep -q '# wrong: ' "${path}_wrong.s" &&
        [ "$(diff <(sed 's/ *#.*//' "$path.s") <(sed 's/ *#.*//' "${path}_wrong.s") | grep -c '^[<>] *[^ ]')" -le 5 ]
}

# ends_the_sweep_as_the_right_one NAME STAGES: the sweep of the wrong text ends without a fault, and with the words of the right
# one that the right one's schedules agree on; of the barrier, word 0 alone.
ends_the_sweep_as_the_right_one() {
    local wanted
    ./ultra asm "examples/published/$1_wrong.s" "$room/wrong.elf" && ./ultra run --sweep --k "$2" "$room/wrong.elf" >"$room/report" || return 1
    [ "$(grep -c '^processor [0-9]* pc [0-9a-f]* halt 00 ' "$room/report")" -eq $((1 << $2)) ] || return 1
    wanted=$(published_words "$1" "$2" | sed '/^word 448 /,$d')
    diff <(printf '%s' "${wanted:+$wanted$'\n'}") <(case $1 in
        lamport_mutex | clh_lock | dissemination_barrier) grep '^word 0 ' ;;
        *) grep '^word ' ;;
    esac <"$room/report")
}

# runs_out_of_budget NAME STAGES: the sweep of the wrong text never ends.
runs_out_of_budget() {
    ./ultra asm "examples/published/$1_wrong.s" "$room/wrong.elf" &&
        ends 4 $'ultra: budget\n  --unfinished prints where the processors stand' ./ultra run --sweep --k "$2" --budget 20000 "$room/wrong.elf"
}

# leaves_all_forks_taken STAGES: the one state of the wrong philosophers from which no end can be reached is the one in which
# each has the fork on the left.
leaves_all_forks_taken() {
    local p ended=0
    ./ultra asm examples/published/philosophers_wrong.s "$room/wrong.elf" || return 1
    ./ultra explore --k "$1" --witness 0 --trace "$room/witness" "$room/wrong.elf" >"$room/results" || ended=$?
    [ "$ended" -eq 1 ] && diff <(echo 'from 1 state no end can be reached') <(tail -n 1 "$room/results") &&
        ./ultra replay "$room/witness" "$room/wrong.elf" >"$room/report" &&
        diff <(for ((p = 0; p < 1 << $1; p++)); do word $((4 + p)) 1; done) <(grep '^word ' "$room/report") &&
        [ "$(grep -c ' run ' "$room/report")" -eq $((1 << $1)) ]
}
for name in lamport_mutex bakery mcs_lock clh_lock dissemination_barrier bounded_queue philosophers readers_writers; do
    check "examples/published/${name}_wrong.s differs from the right text in a few lines" differs_in_a_few_lines "$name"
    case $name in
        philosophers) stages=(1 2) ;;
        readers_writers) stages=(2) ;;
        *) stages=() ;;
    esac
    for k in "${stages[@]}"; do
        check "the sweep of examples/published/${name}_wrong.s on $((1 << k)) processors never ends" runs_out_of_budget "$name" "$k"
    done
    case $name in
        philosophers) stages=() ;;
        readers_writers) stages=(1) ;;
        *) stages=(1 2) ;;
    esac
    for k in "${stages[@]}"; do
        check "the sweep of examples/published/${name}_wrong.s on $((1 << k)) processors ends as that of the right text" \
            ends_the_sweep_as_the_right_one "$name" "$k"
    done
done
for k in 1 2 3; do
    check "$((1 << k)) philosophers are stuck in one state, with all forks taken" leaves_all_forks_taken "$k"
done

# ---- what the page says

# The rows of the page's table of commands: a text, a command, and what it finds.
rows_of_the_page() {
    sed -n 's/^| \[\([a-z_]*\)\]([a-z_]*\.s) | `\([a-z][^`]*\)` | \([^|]*\) |$/\1|\2|\3/p' examples/published/README.md
}

# wrong_runs WORDS: for each result of a hunt, on standard input, that is not right, its number of runs and its first. A result
# is right if it is over, all halt with 00, and the lines of words are these.
wrong_runs() {
    awk -v right="$1" '
        function told() { if (count && (bad || words != right)) print count, first; words = ""; bad = 0 }
        /^runs / { told(); count = $2; first = $4; bad = $5 != "over"; next }
        /^processor / { bad = bad || $0 !~ / halt 00 / }
        /^word / { words = words $0 "|" }
        END { told() }'
}

# found_by NAME COMMAND OPTION ..: what a command of the page finds in a wrong text, in the words of the page.
found_by() {
    local name=$1 command=$2 words
    shift 2
    case $command in
        explore)
            ./ultra explore "$@" "$room/$name.elf" >"$room/found"
            tail -n 2 "$room/found" | paste -sd ';' | sed 's/;/; /'
            ;;
        hunt) # --k K --runs N --budget B --observe FIRST or FIRST-LAST
            words=$(published_words "$name" "$2" | awk -v list="$8" 'BEGIN { n = split(list, ends, "-") }
                $2 >= ends[1] && $2 <= ends[n] { printf "%s|", $0 }')
            ./ultra hunt "$@" "$room/$name.elf" >"$room/found"
            wrong_runs "$words" <"$room/found" |
                awk -v of="$4" '{ sum += $1; if (!first || $2 < first) first = $2 } END { print sum + 0 " of " of " runs" (sum ? ", first run " first : "") }'
            ;;
    esac
}

# finds_what_the_page_says NAME COMMAND FOUND: a command of the page finds in the wrong text what the page says.
finds_what_the_page_says() {
    local words
    ./ultra asm "examples/published/$1_wrong.s" "$room/$1.elf" && read -ra words <<<"$2" && diff <(echo "$3") <(found_by "$1" "${words[@]}")
}
while IFS='|' read -r name command found; do
    check "ultra $command finds in examples/published/${name}_wrong.s what the page says" finds_what_the_page_says "$name" "$command" "$found"
done < <(rows_of_the_page)

# Each wrong text has a row for `hunt` and one for `explore`, and a section.
has_a_row_for_each() {
    local name
    for name in examples/published/*_wrong.s; do
        name=$(basename "$name" _wrong.s)
        for it in hunt explore; do
            rows_of_the_page | grep -q "^$name|$it " || { echo "$name has no row for $it" && return 1; }
        done
        grep -qx "## $name" examples/published/README.md && [ -e "examples/published/$name.s" ] || return 1
    done
}
check 'the page of examples/published has rows and a section for each algorithm' has_a_row_for_each

# ---- what another search finds

if ! command -v python3 >/dev/null; then
    left_out 'another search of the published algorithms, because python3 is not installed'
    return
fi

while read -r name options; do
    # shellcheck disable=SC2086 # the options are words
    check "ultra explore $options prints for examples/published/$name.s what another search finds" \
        finds_what_another_search_finds "examples/published/$name.s" $options
done <<'END'
lamport_mutex --k 1 --fair
bakery --k 1 --fair
mcs_lock --k 1 --fair
clh_lock --k 1 --fair
dissemination_barrier --k 1 --fair
dissemination_barrier --k 2
bounded_queue --k 1 --fair
philosophers --k 1 --fair
readers_writers --k 1 --fair
readers_writers_wrong --k 1 --fair
bounded_queue --k 2
philosophers --k 2
readers_writers --k 2
lamport_mutex_wrong --k 1
lamport_mutex_wrong --k 2
bakery_wrong --k 1
mcs_lock_wrong --k 2
clh_lock_wrong --k 0
clh_lock_wrong --k 1
clh_lock_wrong --k 2
dissemination_barrier_wrong --k 1
dissemination_barrier_wrong --k 2
bounded_queue_wrong --k 1
bounded_queue_wrong --k 2
philosophers_wrong --k 2
readers_writers_wrong --k 1
readers_writers_wrong --k 2
END

# three_of_four NAME: the text with the lines of docs/EXPLORE.md that let processor 3 halt at once.
three_of_four() {
    awk '/^\*\*Three of four\.\*\*/ { inside = 1 } /^With these lines/ { inside = 0 } inside && /^     /' docs/EXPLORE.md | tail -n 2 >"$room/lines"
    awk -v lines="$room/lines" '/^ ecall/ && !found { print; while ((getline line <lines) > 0) print line; found = 1; next }
        /^ addi a7, x0, 0 / { sub(/^ /, "done: ") } { print }' "examples/published/$1.s"
}

# searches_three_of_four NAME: with these lines, `explore` prints on four processors what another search finds. docs/EXPLORE.md
# has the number of states with the lines, and without.
searches_three_of_four() {
    local file states
    three_of_four "$1" >"$room/three.s" && [ "$(wc -l <"$room/lines")" -eq 2 ] &&
        finds_what_another_search_finds "$room/three.s" --k 2 && cp "$room/results" "$room/three.results" &&
        ./ultra asm "examples/published/$1.s" "$room/four.elf" && ./ultra explore --k 2 "$room/four.elf" >"$room/four.results" || return 1
    for file in three four; do
        states=$(sed -n 's/^[0-9]* results, \([0-9]*\) states$/\1/p' "$room/$file.results" | sed 's/\(...\)$/,\1/')
        grep -qE "[^0-9,]$states([^0-9]|$)" docs/EXPLORE.md || { echo "docs/EXPLORE.md does not have $states" && return 1; }
    done
}
for it in lamport_mutex lamport_mutex_wrong; do
    check "docs/EXPLORE.md has the states of examples/published/$it.s with three of four processors and with all" searches_three_of_four "$it"
done
