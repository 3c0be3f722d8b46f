# shellcheck shell=bash
# The codes that `ultra` prints: the files of examples/broken cause them, and `ultra explain` explains them.

# Carries out each line of the table in examples/broken: the command prints what the line says, ends with its status and
# makes no OUT. The second line that it prints names the file: for a code of an image the last argument, for other codes
# the first. K1 names none.
refuses_what_is_broken() {
    local command said status file tried=0
    while IFS='|' read -r _ command said status _; do
        [[ $command =~ \`(.*)\` ]] && command=${BASH_REMATCH[1]//OUT/$room/none.out} || continue
        [[ $said =~ \`(.*)\` ]] && said=${BASH_REMATCH[1]} || continue
        case $said in
            *' K1') ;;
            *' I'*) said+=$'\n'"  ${command##* }" ;;
            *) file=${command#* } said+=$'\n'"  ${file%% *}" ;;
        esac
        # shellcheck disable=SC2086
        (cd examples/broken && ends "${status// /}" "$said" "$top/ultra" $command) || { echo "$command"; return 1; }
        [ ! -e "$room/none.out" ] || return 1
        tried=$((tried + 1))
    done <examples/broken/README.md
    [ "$tried" -ge "$(find examples/broken -type f ! -name README.md ! -name good.elf ! -name several.out | wc -l)" ]
}
check 'each file of examples/broken is refused as the table there says' refuses_what_is_broken

# The codes that a document lists in its last section, a line each.
codes_of() {
    awk -F '   *' '/^## Codes$/ { inside = 1 }
        inside && /^    [A-Za-z]/ && NF > 2 { count = split($2, words, " "); for (i = 1; i <= count; i++) print words[i] }' "$1" |
        grep -vxE 'line|step|N' | sort
}

# `ultra explain` lists the codes of the document's table.
lists_the_codes_of() {
    diff <(codes_of "$1") <(./ultra explain | sed -n '1,/^$/s/^\([A-Za-z0-9-]*\): .*/\1/p' | sort)
}
check 'ultra explain lists the codes of docs/COMMANDS.md' lists_the_codes_of docs/COMMANDS.md

# `ultra explain` has a text for each code of the table in examples/broken.
explains_what_is_broken() {
    local code tried=0
    for code in $(grep -oE '`ultra: [A-Za-z0-9]+' examples/broken/README.md | sed 's/.*: //' | sort -u); do
        ./ultra explain "$code" >"$room/out" && grep -q "^$code: " "$room/out" || { echo "$code"; return 1; }
        tried=$((tried + 1))
    done
    [ "$tried" -gt 0 ]
}
check 'ultra explain explains each code of examples/broken' explains_what_is_broken

explains_each_of_its_list() {
    local name
    for name in $(./ultra explain | sed -n 's/^\([A-Za-z0-9-]*\): .*/\1/p'); do
        diff <(./ultra explain "${name,,}") <(./ultra explain "${name^^}") &&
            diff <(./ultra explain | grep "^$name: ") <(./ultra explain "$name" | head -n 1) || { echo "$name"; return 1; }
    done
}
check 'ultra explain explains all that it lists' explains_each_of_its_list
check 'ultra explain refuses an unknown code, with status 2' \
    ends 2 "$(printf "error: unrecognized code 'A33'\n\n\`ultra explain\` lists what there is.")" ./ultra explain A33

# explains_as NAME WORD ..: `ultra explain` with these words prints the text of NAME.
explains_as() {
    local name=$1
    shift
    diff <(./ultra explain "$name" && echo "status $?") <(./ultra explain "$@" && echo "status $?") || { echo "$*"; return 1; }
}

# Each line that the files of examples/broken cause is explained as its code, as one word and as several, with `ultra: `
# and without.
explains_the_lines() {
    local line code tried=0
    while read -r line; do
        code=${line#ultra: }
        # shellcheck disable=SC2086
        explains_as "${code%% *}" "$line" && explains_as "${code%% *}" "$code" && explains_as "${code%% *}" $line &&
            explains_as "${code%% *}" $code || return 1
        tried=$((tried + 1))
    done < <(grep -oE '`ultra: [^`]+`' examples/broken/README.md | tr -d '`' | sort -u)
    [ "$tried" -gt 15 ]
}
check 'ultra explain takes each line of examples/broken as it is printed' explains_the_lines

# A fault is explained as it stands in a report.
explains_faults() {
    local number
    for number in {1..8}; do
        explains_as "$number" fault "$number" && explains_as "$number" "fault $number" || return 1
    done
    ./ultra run --sweep --k 0 "$room/ebreak.elf" >"$room/out" 2>&1
    # shellcheck disable=SC2046
    explains_as 8 $(grep -o 'fault [0-9]' "$room/out")
}
check 'ultra explain takes a fault as it stands in a report' explains_faults
check 'ultra explain refuses a line that is not printed, with status 2' \
    ends 2 "$(printf "error: unrecognized code 'A3 lime 2'\n\n\`ultra explain\` lists what there is.")" ./ultra explain A3 lime 2

# The text of fault 1 names what to write instead of lr.w and sc.w, and the text of each fault speaks of C.
speaks_of_c() {
    local number word
    for number in {1..8}; do
        ./ultra explain fault "$number" | grep -q '^In C: ' || { echo "$number"; return 1; }
    done
    ./ultra explain fault 1 >"$room/out"
    for word in lr.w sc.w amoadd.w amoswap.w __atomic_compare_exchange fetch_and_add; do
        grep -qF "\`$word" "$room/out" || grep -qF "    $word" "$room/out" || { echo "$word"; return 1; }
    done
}
check 'the text of each fault speaks of C, and that of fault 1 of compare-and-swap' speaks_of_c

# ---- help

# prints_help STATUS LINE WORD ..: the command ends with STATUS, prints LINE among others, and nothing on standard error.
prints_help() {
    local status=$1 line=$2 ended=0
    shift 2
    ./ultra "$@" >"$room/out" 2>"$room/err" || ended=$?
    diff /dev/null "$room/err" && grep -qFx "$line" "$room/out" && [ "$ended" -eq "$status" ] || { echo "$*: status $ended"; return 1; }
}

helps() {
    prints_help 0 'Usage: ultra <COMMAND>' help && prints_help 0 'Usage: ultra run [OPTIONS] <FILE>' help run &&
        prints_help 0 'Usage: ultra explain [CODE]...' help explain && prints_help 2 'Usage: ultra <COMMAND>' --help &&
        prints_help 2 'Usage: ultra run [OPTIONS] <FILE>' run --help && prints_help 2 'ultra 0.1.0' --version
}
check 'ultra help and ultra help COMMAND end with status 0, --help and --version with 2' helps

helps_with_unknown_command() {
    ! ./ultra help frob >"$room/out" 2>"$room/err" && diff /dev/null "$room/out" &&
        grep -qFx "error: unrecognized subcommand 'frob'" "$room/err"
}
check 'ultra help refuses an unknown command' helps_with_unknown_command

help_to_a_full_disk() {
    ./ultra help >/dev/full
}
check 'ultra help reports a full disk: link, status 3' ends_with_code 3 link "standard output: $no_space_left" help_to_a_full_disk
