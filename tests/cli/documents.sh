# shellcheck shell=bash
# The commands and programs that documents show, carried out as they are printed.

# The program of docs/ASSEMBLER.md: four processors add 1 to 4, and each prints A.
assembles_the_document() {
    awk '/^```asm$/ { inside = 1; next } /^```$/ { inside = 0 } inside' docs/ASSEMBLER.md >"$room/document.s"
    ./ultra asm "$room/document.s" "$room/document.elf" && ./ultra run --k 2 "$room/document.elf" >"$room/out" &&
        grep '^word 0 0000000a$' "$room/out" && [ "$(grep -c ' halt 00 .* console 41$' "$room/out")" -eq 4 ]
}
check 'the program of docs/ASSEMBLER.md runs on four processors' assembles_the_document

# The commands of examples/README.md that run the algorithms end with the words that the algorithms leave.
runs_the_algorithms() (
    mkdir -p "$room/algorithms" && cd "$room/algorithms" && ln -sfn "$top/ultra" ultra && ln -sfn "$top/examples" examples || exit 1
    awk '/^## / { inside = ($0 == "## Run them all") } /^```$/ { code = 0 } inside && code; /^```sh$/ { code = 1 }' examples/README.md >run.sh
    [ "$(grep -c '^ *\./ultra' run.sh)" -ge 6 ] && bash -eu run.sh || exit 1
    for name in barrier self_scheduled ticket_lock prefix_sums readers_writers queue hot_spot; do
        diff <(final_words "$name" 2) <(grep '^word' "$name.report") || exit 1
        [ -s "$name.order" ] && [ -s "$name.story" ] && [ -s "$name.stats" ] && tail -n 1 "$name.svg" | grep -x '</svg>' || exit 1
    done
)
check 'the commands of examples/README.md run the algorithms to their final words' runs_the_algorithms

# matches WANTED FOUND: both files have the same lines, except that a line `..` of WANTED stands for any lines.
matches() {
    awk 'BEGIN { at = 1 }
        NR == FNR { wanted[NR] = $0; all = NR; next }
        wanted[at] == ".." && (at == all || $0 != wanted[at + 1]) { next }
        wanted[at] == ".." { at += 2; next }
        at <= all && $0 == wanted[at] { at++; next }
        { print "found " $0 " instead of " wanted[at]; wrong = 1; exit }
        END { if (!wrong && at <= all && !(wanted[at] == ".." && at == all)) { print "not found: " wanted[at]; wrong = 1 } exit wrong }' "$1" "$2"
}

# Each command of docs/TUTORIAL.md prints what the tutorial shows below it. It may end with status 1, which means that a
# processor stopped with a fault or that there is a deadlock.
follows_the_tutorial() (
    local at=0 ended
    mkdir -p "$room/tutorial" && cd "$room/tutorial" && ln -sfn "$top/ultra" ultra && ln -sfn "$top/examples" examples || exit 1
    awk '/^```sh$/ { at++; file = at ".sh"; next } /^```text$/ { file = at ".wanted"; next } /^```$/ { file = ""; next } file { print >file }' \
        "$top/docs/TUTORIAL.md"
    while [ -s "$((at + 1)).sh" ]; do
        at=$((at + 1)) ended=0
        bash -u "$at.sh" >"$at.found" 2>"$at.err" || ended=$?
        [ "$ended" -le 1 ] && diff /dev/null "$at.err" && { [ ! -e "$at.wanted" ] || matches "$at.wanted" "$at.found"; } ||
            { cat "$at.sh" "$at.found"; exit 1; }
    done
    [ "$at" -ge 12 ] && [ "$(cat ./*.wanted | wc -l)" -ge 50 ] && tail -n 1 hot_spot.svg | grep -qx '</svg>'
)
check 'each command of docs/TUTORIAL.md prints what the tutorial shows' follows_the_tutorial

# The command of docs/TUTORIAL.md draws the picture that the documents show.
draws_what_is_shown() {
    ./ultra run --sweep --k 3 --trace "$room/shown.trace" "$room/hot_spot.elf" >"$room/out" &&
        ./ultra picture "$room/shown.trace" "$room/hot_spot.elf" --step "$(sed -n 's/.* picture --step \([0-9]*\) hot_spot.trace .*/\1/p' docs/TUTORIAL.md)" |
        diff examples/hot_spot.svg -
}
check 'examples/hot_spot.svg is the picture that docs/TUTORIAL.md draws' draws_what_is_shown

# The commands of README.md, without their proofs being skipped, find 19 results from 2 to 20.
finds_the_results_of_the_readme() {
    sed -n 's/^    \.\/ultra --quick/.\/ultra/p' README.md | sed "s| ten_adds\.elf| $room/ten_adds.elf|" >"$room/readme.sh"
    [ "$(wc -l <"$room/readme.sh")" = 3 ] && bash -e -o pipefail "$room/readme.sh" >"$room/out" &&
        diff <(grep '^word 0' "$room/out" | head -n 19) <(printf 'word 0 %08x\n' {2..20})
}
check 'the commands of README.md find the results that it names' finds_the_results_of_the_readme

# The completions have the commands, the options and the topics that the program lists.
completes_what_is_listed() {
    local command
    diff <(./ultra help | sed -n '/^Commands:$/,/^$/s/^  \([a-z]*\) .*/\1/p' | LC_ALL=C sort) <(bash_offers 'ultra ') || return 1
    for command in $(./ultra help | sed -n '/^Commands:$/,/^$/s/^  \([a-z]*\) .*/\1/p' | grep -vx help); do
        diff <(./ultra help "$command" | sed -n '/^Options:$/,/^$/s/^ *\(-h, \)\{0,1\}\(--[a-z-]*\).*/\2/p' | LC_ALL=C sort) \
            <(bash_offers "ultra $command -") || { echo "$command"; return 1; }
    done
    diff <(./ultra explain | sed -n 's/^\([A-Za-z0-9-]*\): .*/\1/p' | LC_ALL=C sort) <(bash_offers 'ultra explain ')
}
check 'completions have the commands, options and topics that the program lists' completes_what_is_listed
