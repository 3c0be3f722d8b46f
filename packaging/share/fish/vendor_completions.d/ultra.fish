# Completions of ultra for fish. Made by tests/tools/completions.py --write: do not edit.

# Prints the words before the cursor, without the program and `--quick`.
function __ultra_words
    set -l words (commandline -opc)
    set -e words[1]
    test "$words[1]" = --quick; and set -e words[1]
    printf '%s\n' $words
end

function __ultra_wants_command
    set -l words (__ultra_words)
    test -z "$words"
end

function __ultra_has_command
    set -l words (__ultra_words)
    test "$words[1]" = $argv[1]
end

# Whether the command $argv[1] has fewer words than $argv[2] after it, apart from options. The others of $argv are its
# options that take a value.
function __ultra_wants_more
    set -l words (__ultra_words)
    test "$words[1]" = $argv[1]; or return 1
    set -e words[1]
    set -l count 0
    set -l skip 0
    for word in $words
        if test $skip -eq 1
            set skip 0
        else if contains -- $word $argv[3..-1]
            set skip 1
        else if not string match -q -- '-*' $word
            set count (math $count + 1)
        end
    end
    test $count -lt $argv[2]
end

complete -c ultra -f
complete -c ultra -n __ultra_wants_command -a words -d 'Run a program of hex words on one processor and print its registers'
complete -c ultra -n __ultra_wants_command -a check -d 'List every mistake of a text, each with its line, column, word and what would be right'
complete -c ultra -n __ultra_wants_command -a asm -d 'Assemble a text to an image, which holds the memory of a machine that starts'
complete -c ultra -n __ultra_wants_command -a dis -d 'Print the code of an image, a line for each word up to the last that is not zero'
complete -c ultra -n __ultra_wants_command -a run -d 'Run an image on a machine of up to 64 processors and print its report'
complete -c ultra -n __ultra_wants_command -a hunt -d 'Run an image many times by random schedules, and print each different result once'
complete -c ultra -n __ultra_wants_command -a explore -d 'Print every final result that a program can have on 1 to 64 processors, over all schedules'
complete -c ultra -n __ultra_wants_command -a replay -d 'Take the steps of a trace on a machine that opens on an image, and print its report'
complete -c ultra -n __ultra_wants_command -a order -d 'Print the serial order of whole instructions that explains the run of a trace'
complete -c ultra -n __ultra_wants_command -a story -d 'Print what the machine did in each step of a trace'
complete -c ultra -n __ultra_wants_command -a stats -d 'Count what the switches, the modules and the processors did in the steps of a trace'
complete -c ultra -n __ultra_wants_command -a picture -d 'Draw the machine after some steps of a trace, as an SVG'
complete -c ultra -n __ultra_wants_command -a page -d 'Write a page for a browser that plays the steps of a trace'
complete -c ultra -n __ultra_wants_command -a study -d 'Run an image by the sweep on machines of several sizes, and print a row of figures for each'
complete -c ultra -n __ultra_wants_command -a trace -d 'Print a trace as a text, which can be edited and made a trace again by `ultra steps`'
complete -c ultra -n __ultra_wants_command -a steps -d 'Make a trace of a text of steps, which may be written by hand'
complete -c ultra -n __ultra_wants_command -a debug -d 'Wait for a debugger on 127.0.0.1, and serve its commands on a machine that opens on an image'
complete -c ultra -n __ultra_wants_command -a explain -d 'Explain what a code that ultra prints means, what usually causes it and what to do'
complete -c ultra -n __ultra_wants_command -a help -d 'Print the help of the program or of a command'
complete -c ultra -n __ultra_wants_command -s h -l help -d 'Print help'
complete -c ultra -n __ultra_wants_command -s V -l version -d 'Print version'

complete -c ultra -n '__ultra_has_command words' -l help -d 'Print help'
complete -c ultra -n '__ultra_wants_more words 1' -F

complete -c ultra -n '__ultra_has_command check' -l course -d 'Take the pseudo-instructions, forms and directives of RISC-V textbooks, as `li a0, 5`'
complete -c ultra -n '__ultra_has_command check' -l json -d 'Print each line as a JSON object'
complete -c ultra -n '__ultra_has_command check' -l help -d 'Print help'
complete -c ultra -n '__ultra_wants_more check 1' -F

complete -c ultra -n '__ultra_has_command asm' -l course -d 'Take the pseudo-instructions, forms and directives of RISC-V textbooks, as `li a0, 5`'
complete -c ultra -n '__ultra_has_command asm' -l symbols -r -F -d 'Write the addresses of the labels to MAP, as `nm` prints them, for --symbols of other commands'
complete -c ultra -n '__ultra_has_command asm' -l help -d 'Print help'
complete -c ultra -n '__ultra_wants_more asm 2 --symbols' -F

complete -c ultra -n '__ultra_has_command dis' -l comments -d 'Write the name of an instruction that the machine does not have after its word, as `# lr.w`'
complete -c ultra -n '__ultra_has_command dis' -l symbols -r -F -d 'Print names beside addresses, from the symbol table of an ELF file or from what `nm` prints'
complete -c ultra -n '__ultra_has_command dis' -l abi -d 'Write registers by their ABI names, and the target of a jump or branch as an address'
complete -c ultra -n '__ultra_has_command dis' -l words -x -d 'Shared words of four bytes that the machine has, 1 to 262144 [default: 1024]'
complete -c ultra -n '__ultra_has_command dis' -l help -d 'Print help'
complete -c ultra -n '__ultra_wants_more dis 1 --symbols --words' -F

complete -c ultra -n '__ultra_has_command run' -l trace -r -F -d 'Where to write the steps of the run, for `ultra replay`; opened after the run is over'
complete -c ultra -n '__ultra_has_command run' -l sweep -d 'Run by the sweep, on one thread: every run gives the same result'
complete -c ultra -n '__ultra_has_command run' -l no-log -d 'With --sweep, keep no log of the steps, so that --budget may be up to 4000000000 of them; not with --trace'
complete -c ultra -n '__ultra_has_command run' -l unfinished -d 'Print the report, and write the trace, even if the budget ends the run'
complete -c ultra -n '__ultra_has_command run' -l quiet -d 'Show no progress line on a terminal'
complete -c ultra -n '__ultra_has_command run' -l symbols -r -F -d 'Print names beside addresses and words, from the symbol table of an ELF file or from what `nm` prints; not with --json'
complete -c ultra -n '__ultra_has_command run' -l decimal -d 'Print values in decimal, in two\'s complement; not with --json'
complete -c ultra -n '__ultra_has_command run' -l json -d 'Print each line as a JSON object'
complete -c ultra -n '__ultra_has_command run' -l k -x -a '0 1 2 3 4 5 6' -d 'Stages of the network, 0 to 6; the machine has 2^k processors and 2^k memory modules [default: 2]'
complete -c ultra -n '__ultra_has_command run' -l c -x -a '2 3 4 5 6 7 8 9 10 11 12 13 14 15 16' -d 'Messages that a queue of a switch holds, 2 to 16 [default: 4]'
complete -c ultra -n '__ultra_has_command run' -l b -x -a '0 1 2 3 4 5 6 7 8 9 10 11 12 13 14 15 16' -d 'Records of combined requests that an output of a switch holds, 0 to 16; with 0 nothing is combined [default: 4]'
complete -c ultra -n '__ultra_has_command run' -l r -x -a '1 2 3' -d 'Times that a request in a queue of a switch is combined, 1 to 3, and fewer than --c [default: 1]'
complete -c ultra -n '__ultra_has_command run' -l words -x -d 'Shared words of four bytes that the machine has, 1 to 262144 [default: 1024]'
complete -c ultra -n '__ultra_has_command run' -l budget -x -d 'Rounds that each thread may go through, or steps that the sweep may take, 1 to 4294967295 [default: 10000000]'
complete -c ultra -n '__ultra_has_command run' -l start -x -d 'Number from which the choices of the threads start, 0 to 4294967295; the sweep makes none [default: 1]'
complete -c ultra -n '__ultra_has_command run' -l help -d 'Print help'
complete -c ultra -n '__ultra_wants_more run 1 --trace --symbols --k --c --b --r --words --budget --start' -F

complete -c ultra -n '__ultra_has_command hunt' -l trace -r -F -d 'Write a trace for each result, for `ultra replay`, to PREFIX followed by the run\'s number and `.trace`'
complete -c ultra -n '__ultra_has_command hunt' -l page -r -F -d 'Write a page for each result, which plays its first run, to PREFIX followed by the run\'s number and `.html`'
complete -c ultra -n '__ultra_has_command hunt' -l observe -x -d 'Words by which runs differ, as `0-3,8`; results have no others [default: all]'
complete -c ultra -n '__ultra_has_command hunt' -l schedule -r -F -d 'How a run picks the processor of each turn: random, pct or sweep-like [default: random]'
complete -c ultra -n '__ultra_has_command hunt' -l overwrite -d 'Overwrite traces and pages that exist; without it the hunt is refused if one does'
complete -c ultra -n '__ultra_has_command hunt' -l expect-one -d 'Expect all runs to come to one result; if they do not, the exit status says so'
complete -c ultra -n '__ultra_has_command hunt' -l quiet -d 'Show no progress line on a terminal'
complete -c ultra -n '__ultra_has_command hunt' -l symbols -r -F -d 'Print names beside addresses and words, from the symbol table of an ELF file or from what `nm` prints; not with --json'
complete -c ultra -n '__ultra_has_command hunt' -l decimal -d 'Print values in decimal, in two\'s complement; not with --json'
complete -c ultra -n '__ultra_has_command hunt' -l json -d 'Print each line as a JSON object'
complete -c ultra -n '__ultra_has_command hunt' -l k -x -a '0 1 2 3 4 5 6' -d 'Stages of the network, 0 to 6; the machine has 2^k processors and 2^k memory modules [default: 2]'
complete -c ultra -n '__ultra_has_command hunt' -l c -x -a '2 3 4 5 6 7 8 9 10 11 12 13 14 15 16' -d 'Messages that a queue of a switch holds, 2 to 16 [default: 4]'
complete -c ultra -n '__ultra_has_command hunt' -l b -x -a '0 1 2 3 4 5 6 7 8 9 10 11 12 13 14 15 16' -d 'Records of combined requests that an output of a switch holds, 0 to 16; with 0 nothing is combined [default: 4]'
complete -c ultra -n '__ultra_has_command hunt' -l r -x -a '1 2 3' -d 'Times that a request in a queue of a switch is combined, 1 to 3, and fewer than --c [default: 1]'
complete -c ultra -n '__ultra_has_command hunt' -l words -x -d 'Shared words of four bytes that the machine has, 1 to 262144 [default: 1024]'
complete -c ultra -n '__ultra_has_command hunt' -l budget -x -d 'Steps that each run may take, 1 to 4000000 [default: 100000]'
complete -c ultra -n '__ultra_has_command hunt' -l runs -x -d 'Runs to take, 1 to 1000000 [default: 1000]'
complete -c ultra -n '__ultra_has_command hunt' -l start -x -d 'Number of the first run, which decides its choices, 0 to 4294967295; the next run has the next number [default: 1]'
complete -c ultra -n '__ultra_has_command hunt' -l jobs -x -a '1 2 3 4 5 6 7 8 9 10 11 12 13 14 15 16 17 18 19 20 21 22 23 24 25 26 27 28 29 30 31 32 33 34 35 36 37 38 39 40 41 42 43 44 45 46 47 48 49 50 51 52 53 54 55 56 57 58 59 60 61 62 63 64' -d 'Threads that take the runs, 1 to 64; what is printed is the same with any number [default: the host\'s processors]'
complete -c ultra -n '__ultra_has_command hunt' -l depth -x -a '1 2 3 4 5 6 7 8 9 10 11 12 13 14 15 16' -d 'Depth of the bugs that --schedule pct looks for, 1 to 16: one more than the changes of priority [default: 12]'
complete -c ultra -n '__ultra_has_command hunt' -l help -d 'Print help'
complete -c ultra -n '__ultra_wants_more hunt 1 --trace --page --observe --schedule --symbols --k --c --b --r --words --budget --runs --start --jobs --depth' -F

complete -c ultra -n '__ultra_has_command explore' -l trace -r -F -d 'Where to write the steps to the result of --witness, those of a lasso, or those that break a property, for `ultra replay`; opened then'
complete -c ultra -n '__ultra_has_command explore' -l page -r -F -d 'Where to write a page for a browser that plays the same steps, as `ultra page` makes it'
complete -c ultra -n '__ultra_has_command explore' -l observe -x -d 'Words by which results differ, as `0-3,8`; they are printed without others [default: all]'
complete -c ultra -n '__ultra_has_command explore' -l filter -r -F -d 'Print only the results that satisfy the condition, as `word 0 == 1`; not with --every or --against'
complete -c ultra -n '__ultra_has_command explore' -l against -r -F -d 'Print only the results that the image SPEC does not have; not with --every or --witness'
complete -c ultra -n '__ultra_has_command explore' -l never -r -F -d 'Print instead whether no state between references satisfies the condition, as `at 0x10010-0x10020 > 1`'
complete -c ultra -n '__ultra_has_command explore' -l always -r -F -d 'Print instead whether each state does'
complete -c ultra -n '__ultra_has_command explore' -l finally -r -F -d 'Print instead whether each state does in which no processor runs'
complete -c ultra -n '__ultra_has_command explore' -l each -d 'Print every result by itself; alike processors are not exchanged'
complete -c ultra -n '__ultra_has_command explore' -l fair -d 'Also tell whether every fair schedule ends, and show one that never does; alike processors are not exchanged'
complete -c ultra -n '__ultra_has_command explore' -l every -d 'Explore every k from 0 to 6, and print a line for each; not with --witness'
complete -c ultra -n '__ultra_has_command explore' -l quiet -d 'Show no progress line on a terminal'
complete -c ultra -n '__ultra_has_command explore' -l symbols -r -F -d 'Print names beside addresses and words, from the symbol table of an ELF file or from what `nm` prints; not with --json'
complete -c ultra -n '__ultra_has_command explore' -l decimal -d 'Print values in decimal, in two\'s complement; not with --json'
complete -c ultra -n '__ultra_has_command explore' -l json -d 'Print each line as a JSON object'
complete -c ultra -n '__ultra_has_command explore' -l k -x -a '0 1 2 3 4 5 6' -d 'Stages of the network, 0 to 6; the machine has 2^k processors and 2^k memory modules [default: 2]'
complete -c ultra -n '__ultra_has_command explore' -l c -x -a '2 3 4 5 6 7 8 9 10 11 12 13 14 15 16' -d 'Messages that a queue of a switch holds, 2 to 16 [default: 4]'
complete -c ultra -n '__ultra_has_command explore' -l b -x -a '0 1 2 3 4 5 6 7 8 9 10 11 12 13 14 15 16' -d 'Records of combined requests that an output of a switch holds, 0 to 16; with 0 nothing is combined [default: 4]'
complete -c ultra -n '__ultra_has_command explore' -l r -x -a '1 2 3' -d 'Times that a request in a queue of a switch is combined, 1 to 3, and fewer than --c [default: 1]'
complete -c ultra -n '__ultra_has_command explore' -l words -x -d 'Shared words of four bytes that the machine has, 1 to 262144 [default: 1024]'
complete -c ultra -n '__ultra_has_command explore' -l states -x -d 'Give up when this many states are found, 1 to 4294967295 [default: 1000000]'
complete -c ultra -n '__ultra_has_command explore' -l seconds -x -d 'Give up a search after so many seconds, 1 to 4294967295'
complete -c ultra -n '__ultra_has_command explore' -l witness -x -d 'Write the trace of a path to the result of this number, or with 0 to the first state without a path to an end; goes with --trace or --page'
complete -c ultra -n '__ultra_has_command explore' -l help -d 'Print help'
complete -c ultra -n '__ultra_wants_more explore 1 --trace --page --observe --filter --against --never --always --finally --symbols --k --c --b --r --words --states --seconds --witness' -F

complete -c ultra -n '__ultra_has_command replay' -l words -x -d 'Shared words of four bytes that the machine has, 1 to 262144 [default: 1024]'
complete -c ultra -n '__ultra_has_command replay' -l symbols -r -F -d 'Print names beside addresses and words, from the symbol table of an ELF file or from what `nm` prints; not with --json'
complete -c ultra -n '__ultra_has_command replay' -l decimal -d 'Print values in decimal, in two\'s complement; not with --json'
complete -c ultra -n '__ultra_has_command replay' -l json -d 'Print each line as a JSON object'
complete -c ultra -n '__ultra_has_command replay' -l help -d 'Print help'
complete -c ultra -n '__ultra_wants_more replay 2 --words --symbols' -F

complete -c ultra -n '__ultra_has_command order' -l words -x -d 'Shared words of four bytes that the machine has, 1 to 262144 [default: 1024]'
complete -c ultra -n '__ultra_has_command order' -l processor -x -a '0 1 2 3 4 5 6 7 8 9 10 11 12 13 14 15 16 17 18 19 20 21 22 23 24 25 26 27 28 29 30 31 32 33 34 35 36 37 38 39 40 41 42 43 44 45 46 47 48 49 50 51 52 53 54 55 56 57 58 59 60 61 62 63' -d 'Print the lines of this processor alone, 0 to 63'
complete -c ultra -n '__ultra_has_command order' -l word -x -d 'Print the lines about this shared word alone, 0 to 262143'
complete -c ultra -n '__ultra_has_command order' -l from -x -d 'Print no line before the line of this number, 0 to 4294967295'
complete -c ultra -n '__ultra_has_command order' -l to -x -d 'Print no line after the line of this number, 0 to 4294967295'
complete -c ultra -n '__ultra_has_command order' -l symbols -r -F -d 'Print names beside addresses and words, from the symbol table of an ELF file or from what `nm` prints; not with --json'
complete -c ultra -n '__ultra_has_command order' -l abi -d 'Write registers by their ABI names, and the target of a jump or branch as an address; not with --json'
complete -c ultra -n '__ultra_has_command order' -l decimal -d 'Print values in decimal, in two\'s complement; not with --json'
complete -c ultra -n '__ultra_has_command order' -l json -d 'Print each line as a JSON object'
complete -c ultra -n '__ultra_has_command order' -l help -d 'Print help'
complete -c ultra -n '__ultra_wants_more order 2 --words --processor --word --from --to --symbols' -F

complete -c ultra -n '__ultra_has_command story' -l words -x -d 'Shared words of four bytes that the machine has, 1 to 262144 [default: 1024]'
complete -c ultra -n '__ultra_has_command story' -l processor -x -a '0 1 2 3 4 5 6 7 8 9 10 11 12 13 14 15 16 17 18 19 20 21 22 23 24 25 26 27 28 29 30 31 32 33 34 35 36 37 38 39 40 41 42 43 44 45 46 47 48 49 50 51 52 53 54 55 56 57 58 59 60 61 62 63' -d 'Print the lines of this processor alone, 0 to 63'
complete -c ultra -n '__ultra_has_command story' -l word -x -d 'Print the lines about this shared word alone, 0 to 262143'
complete -c ultra -n '__ultra_has_command story' -l from -x -d 'Print no line before the line of this number, 0 to 4294967295'
complete -c ultra -n '__ultra_has_command story' -l to -x -d 'Print no line after the line of this number, 0 to 4294967295'
complete -c ultra -n '__ultra_has_command story' -l symbols -r -F -d 'Print names beside addresses and words, from the symbol table of an ELF file or from what `nm` prints; not with --json'
complete -c ultra -n '__ultra_has_command story' -l network -d 'Print only what the network does: moves of messages, and services'
complete -c ultra -n '__ultra_has_command story' -l rounds -d 'Print `round N` before the first printed step of each round of the sweep'
complete -c ultra -n '__ultra_has_command story' -l decimal -d 'Print values in decimal, in two\'s complement; not with --json'
complete -c ultra -n '__ultra_has_command story' -l json -d 'Print each line as a JSON object'
complete -c ultra -n '__ultra_has_command story' -l help -d 'Print help'
complete -c ultra -n '__ultra_wants_more story 2 --words --processor --word --from --to --symbols' -F

complete -c ultra -n '__ultra_has_command stats' -l words -x -d 'Shared words of four bytes that the machine has, 1 to 262144 [default: 1024]'
complete -c ultra -n '__ultra_has_command stats' -l latency -d 'Print how many rounds of the sweep references took: all, each processor\'s, and those to each word'
complete -c ultra -n '__ultra_has_command stats' -l queues -d 'Print how much waits at each stage at the end of each round of the sweep; not with --latency'
complete -c ultra -n '__ultra_has_command stats' -l csv -d 'Print the counts as CSV, a row for each number; not with --json'
complete -c ultra -n '__ultra_has_command stats' -l json -d 'Print each line as a JSON object'
complete -c ultra -n '__ultra_has_command stats' -l help -d 'Print help'
complete -c ultra -n '__ultra_wants_more stats 2 --words' -F

complete -c ultra -n '__ultra_has_command picture' -l words -x -d 'Shared words of four bytes that the machine has, 1 to 262144 [default: 1024]'
complete -c ultra -n '__ultra_has_command picture' -l step -x -d 'Draw the machine after this many steps, 0 to 4294967295 [default: after all]'
complete -c ultra -n '__ultra_has_command picture' -l symbols -r -F -d 'Draw names in place of addresses and words, from the symbol table of an ELF file or from what `nm` prints'
complete -c ultra -n '__ultra_has_command picture' -l help -d 'Print help'
complete -c ultra -n '__ultra_wants_more picture 2 --words --step --symbols' -F

complete -c ultra -n '__ultra_has_command page' -l words -x -d 'Shared words of four bytes that the machine has, 1 to 262144 [default: 1024]'
complete -c ultra -n '__ultra_has_command page' -l from -x -d 'Begin with the step of this number, 0 to 4294967295 [default: 0]'
complete -c ultra -n '__ultra_has_command page' -l steps -x -d 'Play at most this many steps, 1 to 500000 [default: all, of which a trace may have 500000]'
complete -c ultra -n '__ultra_has_command page' -l symbols -r -F -d 'Show names of words and program counters, from the symbol table of an ELF file or from what `nm` prints'
complete -c ultra -n '__ultra_has_command page' -l help -d 'Print help'
complete -c ultra -n '__ultra_wants_more page 2 --words --from --steps --symbols' -F

complete -c ultra -n '__ultra_has_command study' -l k -x -d 'Stages of the networks, numbers and ranges from 0 to 6 that ascend, as `0..3,6` [default: 0..6]'
complete -c ultra -n '__ultra_has_command study' -l b -x -d 'Records that an output of a switch holds, 0 to 16, as `0,4`; with 0 nothing is combined [default: 4]'
complete -c ultra -n '__ultra_has_command study' -l r -x -d 'Times that a request in a queue of a switch is combined, 1 to 3, and fewer than --c [default: 1]'
complete -c ultra -n '__ultra_has_command study' -l plot -r -F -d 'Draw the numbers of this column by processors, as an SVG; not with --csv or --json'
complete -c ultra -n '__ultra_has_command study' -l csv -d 'Print the rows as CSV; not with --json'
complete -c ultra -n '__ultra_has_command study' -l json -d 'Print each line as a JSON object'
complete -c ultra -n '__ultra_has_command study' -l c -x -a '2 3 4 5 6 7 8 9 10 11 12 13 14 15 16' -d 'Messages that a queue of a switch holds, 2 to 16 [default: 4]'
complete -c ultra -n '__ultra_has_command study' -l words -x -d 'Shared words of four bytes that the machine has, 1 to 262144 [default: 1024]'
complete -c ultra -n '__ultra_has_command study' -l budget -x -d 'Steps that the sweep may take in each run, 1 to 4000000 [default: 4000000]'
complete -c ultra -n '__ultra_has_command study' -l help -d 'Print help'
complete -c ultra -n '__ultra_wants_more study 1 --k --b --r --plot --c --words --budget' -F

complete -c ultra -n '__ultra_has_command trace' -l help -d 'Print help'
complete -c ultra -n '__ultra_wants_more trace 1' -F

complete -c ultra -n '__ultra_has_command steps' -l help -d 'Print help'
complete -c ultra -n '__ultra_wants_more steps 2' -F

complete -c ultra -n '__ultra_has_command debug' -l trace -r -F -d 'Where to write the steps of the session, for `ultra replay`; opened after the session is over'
complete -c ultra -n '__ultra_has_command debug' -l stdio -d 'Serve the session over standard input and output; no port is opened'
complete -c ultra -n '__ultra_has_command debug' -l k -x -a '0 1 2 3 4 5 6' -d 'Stages of the network, 0 to 6; the machine has 2^k processors and 2^k memory modules [default: 2]'
complete -c ultra -n '__ultra_has_command debug' -l c -x -a '2 3 4 5 6 7 8 9 10 11 12 13 14 15 16' -d 'Messages that a queue of a switch holds, 2 to 16 [default: 4]'
complete -c ultra -n '__ultra_has_command debug' -l b -x -a '0 1 2 3 4 5 6 7 8 9 10 11 12 13 14 15 16' -d 'Records of combined requests that an output of a switch holds, 0 to 16; with 0 nothing is combined [default: 4]'
complete -c ultra -n '__ultra_has_command debug' -l r -x -a '1 2 3' -d 'Times that a request in a queue of a switch is combined, 1 to 3, and fewer than --c [default: 1]'
complete -c ultra -n '__ultra_has_command debug' -l words -x -d 'Shared words of four bytes that the machine has, 1 to 262144 [default: 1024]'
complete -c ultra -n '__ultra_has_command debug' -l budget -x -d 'Steps that one `cont` may take, 1 to 4000000 [default: 100000]'
complete -c ultra -n '__ultra_has_command debug' -l port -x -d 'Port of 127.0.0.1 for the debugger, 0 to 65535; with 0 the host chooses a free one [default: 3333]'
complete -c ultra -n '__ultra_has_command debug' -l help -d 'Print help'
complete -c ultra -n '__ultra_wants_more debug 1 --trace --k --c --b --r --words --budget --port' -F

complete -c ultra -n '__ultra_has_command explain' -l help -d 'Print help'
complete -c ultra -n '__ultra_wants_more explain 1' -a V1 -d 'a line of hex words is not eight hex digits, or is one too many'
complete -c ultra -n '__ultra_wants_more explain 1' -a A1 -d 'the first word of a statement is no instruction and no directive'
complete -c ultra -n '__ultra_wants_more explain 1' -a A2 -d 'a statement has the wrong form, or is in the wrong section'
complete -c ultra -n '__ultra_wants_more explain 1' -a A3 -d 'a number is out of its range, or an address is not divisible by 4'
complete -c ultra -n '__ultra_wants_more explain 1' -a A4 -d 'a label is defined on two lines'
complete -c ultra -n '__ultra_wants_more explain 1' -a A5 -d 'a label is used that is not defined'
complete -c ultra -n '__ultra_wants_more explain 1' -a A6 -d 'a section has no room for a statement'
complete -c ultra -n '__ultra_wants_more explain 1' -a A7 -d 'out of memory for the program of a text, reported as `memory`'
complete -c ultra -n '__ultra_wants_more explain 1' -a S1 -d 'a text of steps does not begin with the sizes of a machine'
complete -c ultra -n '__ultra_wants_more explain 1' -a S2 -d 'a line of a text of steps is no step'
complete -c ultra -n '__ultra_wants_more explain 1' -a S3 -d 'a number of a step is out of its range'
complete -c ultra -n '__ultra_wants_more explain 1' -a S4 -d 'a text has more than 4,194,304 steps'
complete -c ultra -n '__ultra_wants_more explain 1' -a S5 -d 'a text of steps has more than 256 MiB'
complete -c ultra -n '__ultra_wants_more explain 1' -a I1 -d 'an image ends before its header or its table of segments does'
complete -c ultra -n '__ultra_wants_more explain 1' -a I2 -d 'an image is no ELF32 executable for RISC-V'
complete -c ultra -n '__ultra_wants_more explain 1' -a I3 -d 'the header of an image asks for something that this machine does not have'
complete -c ultra -n '__ultra_wants_more explain 1' -a I4 -d 'a segment of an image reaches past the end of the file, or is longer there than in memory'
complete -c ultra -n '__ultra_wants_more explain 1' -a I5 -d 'a segment of an image is outside the regions, or has the flags of another region'
complete -c ultra -n '__ultra_wants_more explain 1' -a I6 -d 'two segments of an image share an address'
complete -c ultra -n '__ultra_wants_more explain 1' -a I7 -d 'the entry of an image is outside code, or not divisible by 4'
complete -c ultra -n '__ultra_wants_more explain 1' -a I8 -d 'an image has more than 1 MiB'
complete -c ultra -n '__ultra_wants_more explain 1' -a I9 -d 'an image cannot be read, or cannot be written'
complete -c ultra -n '__ultra_wants_more explain 1' -a I10 -d 'out of memory for an image, reported as `memory`'
complete -c ultra -n '__ultra_wants_more explain 1' -a K1 -d 'a size of the machine is out of its limits'
complete -c ultra -n '__ultra_wants_more explain 1' -a X1 -d 'a trace ends in its header or in a record'
complete -c ultra -n '__ultra_wants_more explain 1' -a X2 -d 'the header of a trace is refused'
complete -c ultra -n '__ultra_wants_more explain 1' -a X3 -d 'a record of a trace is no step of the machine'
complete -c ultra -n '__ultra_wants_more explain 1' -a X4 -d 'a trace has bytes after its last record'
complete -c ultra -n '__ultra_wants_more explain 1' -a X5 -d 'a trace cannot be read, or cannot be written'
complete -c ultra -n '__ultra_wants_more explain 1' -a X6 -d 'out of memory for a trace, reported as `memory`'
complete -c ultra -n '__ultra_wants_more explain 1' -a X7 -d 'a step of a trace stalls: it has nothing to do on this machine'
complete -c ultra -n '__ultra_wants_more explain 1' -a link -d 'a file cannot be opened, a text cannot be read, or standard output cannot be written'
complete -c ultra -n '__ultra_wants_more explain 1' -a budget -d 'the budget is used up, a processor still runs, and no fault has stopped one'
complete -c ultra -n '__ultra_wants_more explain 1' -a states -d 'a program has at least as many states as `--states` allows'
complete -c ultra -n '__ultra_wants_more explain 1' -a alone -d 'a processor takes a million instructions without a shared word'
complete -c ultra -n '__ultra_wants_more explain 1' -a L2 -d 'the log has no room for the steps of a run'
complete -c ultra -n '__ultra_wants_more explain 1' -a L4 -d 'a core that a thread had on loan was not taken back'
complete -c ultra -n '__ultra_wants_more explain 1' -a Start -d 'a thread of a run could not be started'
complete -c ultra -n '__ultra_wants_more explain 1' -a memory -d 'out of memory, or a text has more than 16 MiB'
complete -c ultra -n '__ultra_wants_more explain 1' -a 1 -d 'the word at pc is no instruction'
complete -c ultra -n '__ultra_wants_more explain 1' -a 2 -d 'pc is outside code'
complete -c ultra -n '__ultra_wants_more explain 1' -a 3 -d 'a jump or a taken branch goes to an address that is not divisible by 4'
complete -c ultra -n '__ultra_wants_more explain 1' -a 4 -d 'a load, a store or a fetch-and-phi at an address that its size does not divide'
complete -c ultra -n '__ultra_wants_more explain 1' -a 5 -d 'an address is in no region'
complete -c ultra -n '__ultra_wants_more explain 1' -a 6 -d 'a store or a fetch-and-phi to code'
complete -c ultra -n '__ultra_wants_more explain 1' -a 7 -d 'an environment call that does not exist'
complete -c ultra -n '__ultra_wants_more explain 1' -a 8 -d 'the program reached an ebreak'
complete -c ultra -n '__ultra_wants_more explain 1' -a E01 -d 'a line is no command, or has more than 1,024 bytes'
complete -c ultra -n '__ultra_wants_more explain 1' -a E02 -d 'an address is in no region, or may not be written, or is not in code'
complete -c ultra -n '__ultra_wants_more explain 1' -a E03 -d 'no processor has this number'
complete -c ultra -n '__ultra_wants_more explain 1' -a E04 -d 'no register has this number'
complete -c ultra -n '__ultra_wants_more explain 1' -a E05 -d 'the log has no room for the steps of a command'
complete -c ultra -n '__ultra_wants_more explain 1' -a E06 -d 'out of memory for the steps of a command'
complete -c ultra -n '__ultra_wants_more explain 1' -a calls -d 'the environment calls of a program, with their registers'
complete -c ultra -n '__ultra_wants_more explain 1' -a memory-map -d 'the regions of memory, with their addresses'

complete -c ultra -n '__ultra_wants_more help 1' -a words -d 'Run a program of hex words on one processor and print its registers'
complete -c ultra -n '__ultra_wants_more help 1' -a check -d 'List every mistake of a text, each with its line, column, word and what would be right'
complete -c ultra -n '__ultra_wants_more help 1' -a asm -d 'Assemble a text to an image, which holds the memory of a machine that starts'
complete -c ultra -n '__ultra_wants_more help 1' -a dis -d 'Print the code of an image, a line for each word up to the last that is not zero'
complete -c ultra -n '__ultra_wants_more help 1' -a run -d 'Run an image on a machine of up to 64 processors and print its report'
complete -c ultra -n '__ultra_wants_more help 1' -a hunt -d 'Run an image many times by random schedules, and print each different result once'
complete -c ultra -n '__ultra_wants_more help 1' -a explore -d 'Print every final result that a program can have on 1 to 64 processors, over all schedules'
complete -c ultra -n '__ultra_wants_more help 1' -a replay -d 'Take the steps of a trace on a machine that opens on an image, and print its report'
complete -c ultra -n '__ultra_wants_more help 1' -a order -d 'Print the serial order of whole instructions that explains the run of a trace'
complete -c ultra -n '__ultra_wants_more help 1' -a story -d 'Print what the machine did in each step of a trace'
complete -c ultra -n '__ultra_wants_more help 1' -a stats -d 'Count what the switches, the modules and the processors did in the steps of a trace'
complete -c ultra -n '__ultra_wants_more help 1' -a picture -d 'Draw the machine after some steps of a trace, as an SVG'
complete -c ultra -n '__ultra_wants_more help 1' -a page -d 'Write a page for a browser that plays the steps of a trace'
complete -c ultra -n '__ultra_wants_more help 1' -a study -d 'Run an image by the sweep on machines of several sizes, and print a row of figures for each'
complete -c ultra -n '__ultra_wants_more help 1' -a trace -d 'Print a trace as a text, which can be edited and made a trace again by `ultra steps`'
complete -c ultra -n '__ultra_wants_more help 1' -a steps -d 'Make a trace of a text of steps, which may be written by hand'
complete -c ultra -n '__ultra_wants_more help 1' -a debug -d 'Wait for a debugger on 127.0.0.1, and serve its commands on a machine that opens on an image'
complete -c ultra -n '__ultra_wants_more help 1' -a explain -d 'Explain what a code that ultra prints means, what usually causes it and what to do'
complete -c ultra -n '__ultra_wants_more help 1' -a help -d 'Print the help of the program or of a command'
