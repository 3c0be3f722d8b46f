# shellcheck shell=bash
# Pages that play a run (`ultra page`). tests/page has what reads them, as data and in a browser.

# At ten steps of each run of tests/page/examples.py.
has_right_data() {
    tests/page/test_data.py
}

# What the browser shows; `tests/page/install` installs one.
shows_runs() {
    tests/page/test_page.py
}

if ! command -v python3 >/dev/null; then
    left_out 'the pages of runs, because python3 is not installed'
else
    check 'the data of pages give what pictures, stories and orders say' has_right_data
    if ! command -v chromium >/dev/null; then
        left_out 'pages in a browser, because chromium is not installed: tests/page/install installs it'
    elif [ "${BROWSER_STARTS-yes}" != yes ]; then
        left_out 'pages in a browser, because chromium does not start here (BROWSER_STARTS)'
    else
        check 'pages show in a browser what pictures and stories say, and can be controlled' shows_runs
    fi
fi

# examples/pages/README.md says how each page was made.
makes_its_examples() {
    local folder=$room/pages
    rm -rf "$folder" && mkdir "$folder" || return 1
    sed -n '/^```sh$/,/^```$/p' examples/pages/README.md |
        sed "/^\`\`\`/d; s|examples/pages/|$folder/|; s,\([a-z_]*\.\(elf\|trace\|sym\)\),$folder/\1,g; s|wrong/$folder/|wrong/|" >"$folder/make.sh"
    # The budget of the hot spot ends its run: status 4.
    bash "$folder/make.sh" >"$folder/out" 2>&1
    for page in examples/pages/*.html; do cmp "$page" "$folder/${page##*/}" || return 1; done
}
check 'the pages of examples/pages are those that its README makes' makes_its_examples

# ---- refusals

refuses_a_page_of_no_trace() {
    ends_with_code 3 link "$room/none.trace: $no_such_file" ./ultra page "$room/none.trace" "$room/three.elf" &&
        ends_with_code 3 X5 "$room: $is_a_folder" ./ultra page "$room" "$room/three.elf"
}
check 'page reports a missing trace, and one that cannot be read: link and X5, status 3' refuses_a_page_of_no_trace

# A trace of a short run, its image, one that is missing and one that is none.
refuses_a_page_of_no_image() {
    ./ultra run --sweep --k 1 --trace "$room/three.trace" "$room/three.elf" >"$room/out" &&
        ends_with_code 3 link "$room/none.elf: $no_such_file" ./ultra page "$room/three.trace" "$room/none.elf" &&
        printf 'no image' >"$room/no_image" && ends_with_code 2 I1 "$room/no_image" ./ultra page "$room/three.trace" "$room/no_image" &&
        head -c 23 "$room/three.trace" >"$room/cut.trace" && ends_with_code 2 X1 "$room/cut.trace" ./ultra page "$room/cut.trace" "$room/three.elf" &&
        ends_with_code 3 link "standard output: $no_space_left" bash -c './ultra page "$1" "$2" >/dev/full' _ "$room/three.trace" "$room/three.elf"
}
check 'page reports a missing or wrong image, a cut trace and a full disk' refuses_a_page_of_no_image

# The trace of another image: what step cannot be taken.
refuses_a_page_of_another_image() {
    local ended=0
    ./ultra run --sweep --k 1 --trace "$room/other.trace" "$room/example.elf" >"$room/out" || return 1
    ./ultra page "$room/other.trace" "$room/ebreak.elf" >"$room/out" 2>"$room/err" || ended=$?
    [ "$ended" -eq 2 ] && [ ! -s "$room/out" ] && grep -E '^ultra: X7 step [0-9]+$' "$room/err"
}
check 'page refuses the trace of another image: X7 and its step, status 2' refuses_a_page_of_another_image

# A fault that has stopped a processor is status 1, and the page is whole.
ends_a_page_with_a_fault() {
    local ended=0
    ./ultra run --sweep --k 0 --trace "$room/ebreak.trace" "$room/ebreak.elf" >"$room/out" || ended=$?
    [ "$ended" -eq 1 ] && ended=0 || return 1
    ./ultra page "$room/ebreak.trace" "$room/ebreak.elf" >"$room/ebreak.html" 2>"$room/err" || ended=$?
    diff /dev/null "$room/err" && [ "$ended" -eq 1 ] && [ "$(tail -n 1 "$room/ebreak.html")" = '</html>' ]
}
check 'page ends with status 1 if a fault has stopped a processor' ends_a_page_with_a_fault

# A trace of more than 500,000 steps, of which a page is refused, and pages of its end.
refuses_a_page_of_many_steps() {
    local ended=0 all
    printf 'start: jal x0, start\n' >"$room/spin.s" && ./ultra asm "$room/spin.s" "$room/spin.elf" || return 1
    ./ultra run --sweep --unfinished --k 0 --budget 500001 --trace "$room/long.trace" "$room/spin.elf" >"$room/out" 2>"$room/err" || ended=$?
    [ "$ended" -eq 4 ] && ended=0 || return 1
    ./ultra page "$room/long.trace" "$room/none.elf" >"$room/out" 2>"$room/err" || ended=$?
    [ "$ended" -eq 2 ] && [ ! -s "$room/out" ] || return 1
    diff <(echo "error: a page shows 500000 steps, and the trace has 500001: choose some with '--from <NUMBER>' and '--steps <NUMBER>'") "$room/err" || return 1
    ./ultra page --from 499990 "$room/long.trace" "$room/spin.elf" | grep -x 'words 1024 steps 11 from 499990 of 500001 symbols 0' &&
        ./ultra page --from 7 --steps 20 "$room/long.trace" "$room/spin.elf" | grep -x 'words 1024 steps 20 from 7 of 500001 symbols 0' &&
        ./ultra page --from 4294967295 --steps 500000 "$room/long.trace" "$room/spin.elf" | grep -x 'words 1024 steps 0 from 500001 of 500001 symbols 0' &&
        ./ultra page --from 1 "$room/long.trace" "$room/spin.elf" | grep -x 'words 1024 steps 500000 from 1 of 500001 symbols 0'
}
check 'page refuses more than 500,000 steps, and plays parts of a longer run' refuses_a_page_of_many_steps

# Options that name no number in range.
refuses_page_options() {
    local words ended
    for words in '--steps 0' '--steps 500001' '--from -1' '--from x' '--steps'; do
        ended=0
        # shellcheck disable=SC2086
        ./ultra page $words "$room/three.trace" "$room/three.elf" >"$room/out" 2>"$room/err" || ended=$?
        [ "$ended" -eq 2 ] && [ ! -s "$room/out" ] && grep '^error: ' "$room/err" || return 1
    done
}
check 'page refuses numbers of steps that are out of range' refuses_page_options
