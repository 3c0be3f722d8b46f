# shellcheck shell=bash
# The library of the command line's tests. Each other file of tests/cli has the checks of one subject: functions, and
# beside them the lines that register the checks. `run` sources this file and all subjects, with the top of the
# repository as its folder, and then runs the checks that were asked for.

top=$PWD
# A temporary folder. While a check runs, $room is a copy of this folder that belongs to the check alone.
room=$(mktemp -d)
trap 'rm -rf "$room" "$room".*' EXIT

# ---- registering checks

# The subject, group, name and command of each check. The checks of a group run one after another in one folder. The
# command is quoted for `eval`; a line about what is left out has none.
subjects=() groups=() names=() commands=()
group=0

# check NAME COMMAND WORD ..: registers a check, which passes if the command ends with status 0. It must not depend on
# other checks, since it runs beside them. The words must not contain $room, which is another folder when the check
# runs; a function may use it.
check() {
    group=$((group + 1))
    then_check "$@"
}

# then_check NAME COMMAND WORD ..: registers a check that runs after the previous one and finds its files in $room.
then_check() {
    subjects+=("$subject") groups+=("$group") names+=("$1")
    shift
    commands+=("${*@Q}")
    [[ $* != *"$room"* ]] || { echo "tests/cli/$subject.sh: '${names[-1]}' names \$room before it runs" >&2; exit 2; }
}

# left_out TEXT: registers a line that says which checks this machine cannot run, and why.
left_out() {
    group=$((group + 1))
    subjects+=("$subject") groups+=("$group") names+=("left out: $1") commands+=('')
}

# ---- running checks

most=$(nproc)
started=0
printed=0
passed=0
failed=0

# run_check NAME COMMAND WORD ..: runs and counts a check. If it fails, what the command printed follows its line, and
# the status is 1.
run_check() {
    local name=$1
    shift
    if "$@" >"$room/.printed" 2>&1 </dev/null; then
        passed=$((passed + 1))
        printf 'ok      %s\n' "$name"
    else
        failed=$((failed + 1))
        printf 'FAILED  %s\n' "$name"
        sed 's/^/        /' "$room/.printed"
        return 1
    fi
}

# run_group ROOM FIRST LAST: runs these checks one after another in ROOM. Their lines and their counts go to
# ROOM.printed and ROOM.counts.
run_group() {
    local room=$1 at words passed=0 failed=0
    for ((at = $2; at <= $3; at++)); do
        eval "words=(${commands[at]})"
        if [ "${#words[@]}" -eq 0 ]; then
            printf '%s\n' "${names[at]}"
        else
            run_check "${names[at]}" "${words[@]}"
        fi
    done >"$room.printed" 2>&1
    # The counts come last: they say that the group has ended.
    rm -rf "$room"
    echo "$passed $failed" >"$room.counts"
}

# start_group FIRST LAST: runs these checks in the background, as soon as fewer groups run than there are processors.
start_group() {
    while [ "$(jobs -pr | wc -l)" -ge "$most" ]; do
        wait -n
        print_finished
    done
    started=$((started + 1))
    cp -r "$room" "$room.$started" || exit 1
    run_group "$room.$started" "$@" </dev/null &
}

# Copies the lines of the checks that failed, at most forty lines of each.
what_failed() {
    awk '/^        / { if (left-- > 0) print; next }
        { left = 0 }
        /^FAILED  / { print; left = 40 }'
}

# Prints the lines of the next group, which has ended. A group without counts was killed, which is a failure.
print_next() {
    local own counts=(0 1)
    printed=$((printed + 1))
    own=$room.$printed
    [ -s "$own.counts" ] || echo 'FAILED  the other checks of this group were killed' >>"$own.printed"
    [ ! -s "$own.counts" ] || read -ra counts <"$own.counts"
    cat "$own.printed"
    what_failed <"$own.printed" >>"$room.failures"
    passed=$((passed + counts[0]))
    failed=$((failed + counts[1]))
    rm -rf "$own" "$own".*
}

# Prints the groups that have ended, up to the first that still runs: they are printed in the order in which they were
# started.
print_finished() {
    while [ -s "$room.$((printed + 1)).counts" ]; do print_next; done
}

# Runs the checks that are `selected`. If a check comes after others in its group, these run too: it may need what they
# leave.
run_selected() {
    local at last first=0
    while [ "$first" -lt "${#names[@]}" ]; do
        last=
        for ((at = first; at < ${#names[@]} && groups[at] == groups[first]; at++)); do
            [ -z "${selected[at]}" ] || last=$at
        done
        [ -z "$last" ] || start_group "$first" "$last"
        first=$at
    done
    wait
    while [ "$printed" -lt "$started" ]; do print_next; done
}

# ---- how commands end

# with_status COMMAND WORD ..: what the command prints, and a last line `status N`.
with_status() {
    "$@"
    echo "status $?"
}

# ends STATUS TEXT COMMAND ..: the command ends with STATUS, prints TEXT on standard error and nothing on standard
# output.
ends() {
    local status=$1 text=$2 ended=0
    shift 2
    "$@" >"$room/out" 2>"$room/err" || ended=$?
    [ "$ended" -eq "$status" ] || echo "the status is $ended, not $status"
    diff <(printf '%s\n' "$text") "$room/err" && diff /dev/null "$room/out" && [ "$ended" -eq "$status" ]
}

# ends_with_code STATUS CODE PLACE COMMAND ..: as `ends`, for a text of two lines, the code and where the fault is.
ends_with_code() {
    local status=$1 code=$2 place=$3
    shift 3
    ends "$status" "ultra: $code"$'\n'"  $place" "$@"
}

# Errors of the operating system, with their numbers in the system's headers.
no_such_file='No such file or directory (os error 2)'
is_a_folder='Is a directory (os error 21)'
permission_denied='Permission denied (os error 13)'
address_in_use='Address already in use (os error 98)'
no_space_left='No space left on device (os error 28)'
bad_descriptor='Bad file descriptor (os error 9)'

# ---- libraries that make calls fail

# make_library NAME: makes $room/NAME.so of tests/tools/NAME.c, to be loaded before the C library.
make_library() {
    cc -O2 -shared -fPIC -o "$room/$1.so" "tests/tools/$1.c" -ldl
}

# ---- images and reports

# assembles_to TEXT IMAGE: `./ultra asm` makes the image and prints nothing.
assembles_to() {
    ./ultra asm "$1" "$2" >"$room/out" 2>&1 && diff /dev/null "$room/out"
}

# Makes the images that several subjects use: `ebreak` has one instruction, `three` has three, `example` adds to a word
# 100 times.
make_images() {
    local text
    printf ebreak >"$room/ebreak.s"
    printf 'addi x1, x0, 1\naddi x2, x0, 2\necall\n' >"$room/three.s"
    cp examples/fetch_and_add_100.s "$room/example.s"
    for text in "$room"/{ebreak,three,example}.s examples/algorithms/{,wrong/}*.s examples/explore/counter.s; do
        ./ultra asm "$text" "$room/$(basename "$text" .s).elf" || return 1
    done
}

# example_report COUNT WORD: the report of `example` on COUNT processors, which add up to WORD.
example_report() {
    local number
    for ((number = 0; number < $1; number++)); do
        echo "processor $number pc 00010038 halt 00 retired 311 console 41"
    done
    echo "word 0 $2"
}

# runs_and_replays COUNT WORD OPTION ..: `example` runs to that report, and its saved trace replays to the same.
runs_and_replays() {
    example_report "$1" "$2" >"$room/report"
    shift 2
    rm -f "$room/example.trace"
    ./ultra run --trace "$room/example.trace" "$@" "$room/example.elf" >"$room/out" 2>&1 && diff "$room/report" "$room/out" &&
        ./ultra replay "$room/example.trace" "$room/example.elf" >"$room/out" 2>&1 && diff "$room/report" "$room/out"
}

# word NUMBER VALUE: the line of a report for a shared word, which is not zero.
word() {
    printf 'word %d %08x\n' "$1" "$2"
}

# bits WORD COUNT: the lines for the words from WORD on whose first COUNT bits are set.
bits() {
    local number=$1 left
    for ((left = $2; left > 0; left -= 32)); do
        word "$number" $((left < 32 ? (1 << left) - 1 : 0xffffffff))
        number=$((number + 1))
    done
}

# final_words NAME STAGES: the lines for the words with which an algorithm ends, as examples/algorithms/README.md gives
# them.
final_words() {
    local n=$((1 << $2)) i
    case $1 in
        barrier | wrong/barrier_*) word 1 20 && word 2 $((10 * n)) ;;
        self_scheduled) word 0 $((100 + n)) && word 1 328350 && bits 2 100 ;;
        ticket_lock) for i in 0 1 2; do word "$i" $((10 * n)); done ;;
        prefix_sums)
            word 1 $((1 + 2 * $2))
            for ((i = 0; i < n; i++)); do word $((16 + i)) $(((i + 1) * (i + 2) / 2)); done
            ;;
        readers_writers | wrong/readers_writers_*) for i in 2 3; do word "$i" $((3 * ((n + 1) / 2))); done ;;
        queue)
            word 2 $((16 * n)) && word 3 $((16 * n))
            for i in 8 10 12 14 16 18 20 22; do word "$i" $((4 * n)); done
            bits 32 $((16 * n))
            ;;
        hot_spot) word 0 $((100 * n)) ;;
        *) return 1 ;;
    esac
}

# ---- a debugger's session

# The command that debugs, and the first of the 4,000 ports from which it gets one. A check that must not share ports sets
# another first one.
debugging=(./ultra)
ports=20000

# start_debugger WORD ..: starts a debugger with these words and waits until it listens. Sets `port` and `debugger`, its
# process.
start_debugger() {
    local tries
    for tries in {1..20}; do
        port=$((ports + RANDOM % 4000))
        : >"$room/listening"
        "${debugging[@]}" debug --port "$port" "$@" >"$room/listening" 2>"$room/complaint" 9>"$room/refused" &
        debugger=$!
        while kill -0 "$debugger" 2>/dev/null && ! read -r _ <"$room/listening"; do sleep 0.02; done
        # If the port is taken, tries another.
        [ ! -s "$room/listening" ] && [ "$(head -n 1 "$room/complaint")" = 'ultra: link' ] || break
        wait "$debugger" || true
    done
    diff <(echo "listening $port") "$room/listening" || { kill "$debugger" 2>/dev/null; return 1; }
}

# ends_debugging STATUS TEXT: the debugger ends with STATUS and has printed TEXT on standard error.
ends_debugging() {
    local ended=0
    wait "$debugger" || ended=$?
    diff <(printf '%s' "$2") "$room/complaint" && [ "$ended" -eq "$1" ] || { echo "the status is $ended"; return 1; }
}
