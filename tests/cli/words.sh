# shellcheck shell=bash
# `ultra words`: programs of hex words.

prints_what_it_should() {
    diff "${1%.hex}.out" <(with_status ./ultra words "$1" 2>&1)
}
for it in examples/*.hex bench/*.hex; do
    check "$it prints its .out file" prints_what_it_should "$it"
done

# An instruction that jumps to itself.
stops_a_run_without_end() {
    echo 0000006F >"$room/endless.hex"
    ends 4 'ultra: budget' ./ultra words "$room/endless.hex"
}
check 'words reports a run without end: budget, status 4' stops_a_run_without_end

refuses_a_bad_line() {
    printf '00000073\n0000007\n' >"$room/bad.hex"
    ends_with_code 2 'V1 line 2' "$room/bad.hex" ./ultra words "$room/bad.hex"
}
check 'words refuses a bad line: V1 and its number, status 2' refuses_a_bad_line

refuses_no_file() {
    local ended=0
    ./ultra words >"$room/out" 2>"$room/err" || ended=$?
    [ "$ended" -eq 2 ] && [ ! -s "$room/out" ] && grep '^Usage: ultra words <FILE>$' "$room/err"
}
check 'words without a file prints its usage, with status 2' refuses_no_file

refuses_a_missing_file() {
    ends_with_code 3 link "$room/none.hex: $no_such_file" ./ultra words "$room/none.hex"
}
check 'words reports a missing file: link, status 3' refuses_a_missing_file
