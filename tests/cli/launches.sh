# shellcheck shell=bash
# `./ultra` launches the program: standard streams, other folders, the time of a launch, and a quick launch in a fresh
# copy.

# ---- standard streams

to_a_full_disk() {
    ./ultra words examples/tickets.hex >/dev/full
}
check 'the program reports a full disk for its output: link, status 3' ends_with_code 3 link "standard output: $no_space_left" to_a_full_disk

to_nowhere() {
    ./ultra words examples/tickets.hex >&-
}
check 'the program reports that standard output is closed: link, status 3' ends_with_code 3 link "standard output: $bad_descriptor" to_nowhere

from_nowhere() {
    diff examples/tickets.out <(with_status ./ultra words examples/tickets.hex <&- 2>&1)
}
check 'the program does not need standard input' from_nowhere

passes_its_input_on() {
    diff examples/tickets.out <(with_status ./ultra words /dev/stdin <examples/tickets.hex 2>&1)
}
check 'the launcher passes standard input to the program' passes_its_input_on

# `-` is standard input where a file is read, and standard output for the image that `asm` writes.
takes_a_hyphen() {
    local text=examples/explore/counter.s command
    assembles_to "$text" "$room/hyphen.elf" && ./ultra asm - - <"$text" | cmp "$room/hyphen.elf" - &&
        ./ultra run --sweep --k 1 --trace "$room/hyphen.trace" - <"$room/hyphen.elf" >"$room/report" &&
        diff "$room/report" <(./ultra replay "$room/hyphen.trace" - <"$room/hyphen.elf") &&
        diff "$room/report" <(./ultra replay - "$room/hyphen.elf" <"$room/hyphen.trace") &&
        diff examples/tickets.out <(with_status ./ultra words - <examples/tickets.hex 2>&1) || return 1
    for command in check dis 'run --sweep' 'explore --k 1' 'hunt --runs 3'; do
        # shellcheck disable=SC2086
        diff <(./ultra $command "$room/hyphen.elf" 2>&1) <(./ultra $command - <"$room/hyphen.elf" 2>&1 | sed "s|standard input|$room/hyphen.elf|") || return 1
    done
}
check 'with - a command reads standard input, and asm writes to standard output' takes_a_hyphen

refuses_a_hyphen() {
    ends_with_code 2 'A1 line 1' 'standard input' ./ultra asm - "$room/none.elf" <<<junk &&
        ends_with_code 3 link "standard input: $is_a_folder" ./ultra words - <"$room" &&
        ends 2 'error: standard input is asked for twice' ./ultra order - - </dev/null &&
        ends 2 'error: a trace is not written to standard output' ./ultra run --trace - "$room/ebreak.elf"
}
check 'a fault of standard input names it, and it is read for one purpose alone' refuses_a_hyphen

# ---- where and how

# A launch from another folder, by a link, with a path relative to that folder, in which nothing is written.
runs_from_elsewhere() (
    mkdir "$room/else where" "$room/links"
    cp examples/tickets.hex "$room/else where/a file.hex"
    ln -s "$top/ultra" "$room/links/ultra"
    cd "$room/else where" || exit 1
    diff "$top/examples/tickets.out" <(with_status ../links/ultra words 'a file.hex' 2>&1) && diff <(echo 'a file.hex') <(ls -A)
)
check 'a launch works from another folder, through a link' runs_from_elsewhere

# The installed program needs neither the checkout nor the toolchain nor any variable of the environment.
runs_installed() (
    place=$room/installed
    ./ultra --install "$place" >"$room/told" 2>&1 || { cat "$room/told"; exit 1; }
    cd "$place/share/doc/ultra/examples" && diff fetch_and_add.out <(with_status env -i "$place/bin/ultra" words fetch_and_add.hex 2>&1) &&
        cmp "$place/bin/ultra" "$top/crates/ultra/out/ultra" && cd "$top" && ./ultra --uninstall "$place" 2>&1 && [ ! -e "$place" ]
)
check 'the installed program runs without the checkout' runs_installed

# The processor time of 20 runs of a command in milliseconds, which other work on the machine hardly changes.
milliseconds_of_20() {
    local run TIMEFORMAT='%U %S'
    { time for ((run = 0; run < 20; run++)); do "$@" >/dev/null 2>&1; done; } 2>&1 | awk '{ print int(1000 * ($1 + $2)) }'
}

# Looks at the times of all sources, which each launch has to do to know that the program is up to date.
looks_at_sources() {
    find crates/*/src crates/*/specs crates/*/proofs -newer out/built -quit
}

# On a slow or busy machine 50 ms may pass with hardly more than that look.
launches_in_no_time() {
    local launched own look most
    launched=$(milliseconds_of_20 ./ultra words examples/fetch_and_add.hex)
    own=$(milliseconds_of_20 crates/ultra/out/ultra words examples/fetch_and_add.hex)
    look=$(milliseconds_of_20 looks_at_sources)
    most=$((4 * look > 1000 ? 4 * look : 1000))
    echo "20 launches take $launched ms, the program $own ms, and a look at the sources $look ms"
    [ $((launched - own)) -lt "$most" ]
}
check 'a launch takes less than 50 ms more than the program, or than four looks at the times of the sources' launches_in_no_time

# In a fresh copy of the sources, where nothing is proved, an image runs on two processors and its trace is saved: from
# another folder, by relative paths.
runs_a_fresh_copy_quickly() (
    fresh=$room/fresh
    mkdir -p "$fresh/elsewhere" && cp -r ultra crates.txt HANDLES examples "$fresh" || exit 1
    for crate in crates/*; do
        mkdir -p "$fresh/$crate" && cp -r "$crate"/[!o]* "$fresh/$crate" || exit 1
    done
    assembles_to examples/fetch_and_add_100.s "$fresh/elsewhere/example.elf" || exit 1
    example_report 2 000000c8 >"$room/report"
    ./ultra run --sweep --k 1 --trace "$room/proved.trace" "$fresh/elsewhere/example.elf" >/dev/null || exit 1
    cd "$fresh/elsewhere" || exit 1
    ../ultra --quick run --sweep --k 1 --trace quick.trace example.elf >"$room/out" 2>"$room/told" || { cat "$room/told"; exit 1; }
    diff "$room/report" "$room/out" && cmp quick.trace "$room/proved.trace" && grep 'NOT PROVED' "$room/told" || exit 1
    ../ultra --quick replay quick.trace example.elf >"$room/out" 2>"$room/told" || { cat "$room/told"; exit 1; }
    diff "$room/report" "$room/out" && ! grep compiling "$room/told"
)
check 'a quick launch of a fresh copy has the report and the trace of the proved program' runs_a_fresh_copy_quickly
