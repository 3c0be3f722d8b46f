# shellcheck shell=bash
# The benchmarks of bench/, each with little work. They share bench/out, so they run one after another.

# bench_runs COMMAND WORD ..: the benchmark ends with status 0 and prints a time.
bench_runs() {
    "$@" >"$room/bench" 2>&1 || { cat "$room/bench"; return 1; }
    grep -E '[0-9] (ns|ms|s)\b' "$room/bench"
}

check 'bench/steps runs' bench_runs bench/steps 1000 1
then_check 'bench/moves runs' bench_runs bench/moves 1000 1
then_check 'bench/threads runs, and its reports are those that were worked out by hand' bench_runs bench/threads 1
then_check 'bench/measure_assembler runs' bench_runs bench/measure_assembler 1
if command -v python3 >/dev/null; then
    then_check 'bench/explore runs' bench_runs bench/explore 1
else
    left_out 'bench/explore, because python3 is not installed'
fi
if command -v rustc >/dev/null; then
    then_check 'bench/measure runs' bench_runs bench/measure 1
    then_check 'bench/run runs, and its reports and traces are those of a plain simulator' bench_runs bench/run 1
    then_check 'bench/texts runs, and plain programs print the same' bench_runs bench/texts 1 1000
else
    left_out 'bench/measure, bench/run and bench/texts, because there is no Rust compiler (rustc)'
fi
