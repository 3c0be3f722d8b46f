# shellcheck shell=bash
# `ultra debug`: sessions of a debugger over a socket. The image `three` has three instructions.

# debugs STATUS WORD ..: starts a debugger with these words, sends it the lines of standard input, of which the last is
# `quit`, and prints its replies. The debugger ends with STATUS.
debugs() {
    local status=$1 port debugger
    shift
    start_debugger "$@" || return 1
    exec 8<>"/dev/tcp/127.0.0.1/$port" || return 1
    cat <&0 >&8 &
    timeout 60 cat <&8
    exec 8>&-
    wait $! || return 1
    ends_debugging "$status" ''
}

# Of three instructions the second has a breakpoint: the run stops before it, and then continues to the end.
stops_at_a_break() {
    printf 'addi x1, x0, 1\naddi x2, x0, 2\necall\n' >"$room/three.s"
    assembles_to "$room/three.s" "$room/three.elf" &&
        diff <(printf '%s\n' ok 'at 0' 00010004 halted ok) \
            <(printf '%s\n' 'break 10004' cont 'reg 0 20' cont quit | debugs 0 --k 0 "$room/three.elf")
}
check 'a debugger stops at a break, and then continues to the end' stops_at_a_break

# An add at address 0, which is in no region, stops the processor with fault 5, and the exit status is 1.
steps_into_a_fault() {
    printf 'amoadd.w a0, a1, (a2)\n' >"$room/nowhere.s"
    assembles_to "$room/nowhere.s" "$room/nowhere.elf" &&
        diff <(printf '%s\n' 'at 0' 'fault 5' run E03 ok) \
            <(printf '%s\n' 'step 0' 'state 0' 'state 3' 'state 4' quit | debugs 1 "$room/nowhere.elf")
}
check 'a debugger that steps into a fault ends with status 1' steps_into_a_fault

# The replies to wrong lines, and the effect of writes.
answers_errors() {
    diff <(printf '%s\n' E01 E03 E04 E02 E01 E01 ok 00000007 ok 2a000000 ok) \
        <(printf '%s\n' 'mem 0 80000000 0' 'reg 8 1' 'reg 0 21' 'set 0 20 10002' 'regs  0' $'state 0\r' 'set 0 1 7' 'reg 0 1' \
            'write 0 80000000 2A000000' 'mem 0 80000000 4' quit | debugs 0 "$room/three.elf")
}
check 'a debugger answers a wrong line with its error' answers_errors

# Ten thousand lines and a last one, each with its reply.
answers_many_lines() {
    diff <(yes 00000000 | head -n 10000 && echo ok) <((yes 'reg 3 1f' | head -n 10000 && echo quit) | debugs 0 "$room/three.elf")
}
check 'a debugger answers ten thousand lines' answers_many_lines

# A client disconnects within a line, and another sends nothing. Either ends the session.
survives_its_client() {
    local port debugger text
    for text in 'step 0' ''; do
        start_debugger "$room/three.elf" || return 1
        exec 8<>"/dev/tcp/127.0.0.1/$port" || return 1
        printf %s "$text" >&8
        exec 8>&-
        ends_debugging 0 '' || return 1
    done
}
check 'a session ends if its client disconnects within a line or sends nothing' survives_its_client

# The session of docs/DEBUGGER.md, its lines and its replies.
finds_the_late_reset() {
    local line reply count
    awk -F '   *' '/^## A session that finds/ { inside = 1 } inside && /^    [a-z]/ { print $2 "|" $3 }' docs/DEBUGGER.md |
        while IFS='|' read -r line reply; do
            count=1
            [ "$line" = "${line%, 10 times}" ] || count=10
            for ((i = 0; i < count; i++)); do
                printf '%s\n' "${line%, 10 times}" >&3
                printf '%s\n' "$reply"
            done
        done 3>"$room/lines" >"$room/replies"
    [ "$(wc -l <"$room/lines")" -eq 22 ] &&
        ./ultra asm examples/algorithms/wrong/barrier_reset_late.s "$room/late.elf" &&
        diff "$room/replies" <(debugs 0 --k 1 "$room/late.elf" <"$room/lines")
}
check 'the session of docs/DEBUGGER.md finds what is wrong with a barrier' finds_the_late_reset

# makes_a_session: writes the lines of a session and its replies.
makes_a_session() {
    printf '%s\n' 'write 0 80000000 2a' 'set 0 5 7' 'step 1' cont 'mem 0 80000000 4' 'reg 0 5' 'reg 1 20' 'state 1' quit >"$room/lines"
    printf '%s\n' ok ok 'at 1' halted 2a000000 00000007 00010008 'halt 00' ok >"$room/replies"
}

# ends_the_session TRACE: the trace of that session replays to what it showed last.
ends_the_session() {
    diff <(printf 'processor %d pc 00010008 halt 00 retired 2 console -\n' 0 1 && echo 'word 0 0000002a') <(./ultra replay "$1" "$room/three.elf")
}

# A session is saved as a trace. The trace replays to what the session showed last, and its order begins with the
# debugger's writes. If OUT cannot be written, that is reported after the session; if OUT is FILE, it is refused.
saves_a_session() {
    makes_a_session
    diff "$room/replies" <(debugs 0 --k 1 --trace "$room/session.trace" "$room/three.elf" <"$room/lines") &&
        ends_the_session "$room/session.trace" &&
        diff <(printf '%s\n' '0 - poke 80000000 2a word 0 00000000 0000002a' '1 0 poke x5 00000007') \
            <(./ultra order "$room/session.trace" "$room/three.elf" | head -n 2) || return 1
    local port debugger
    start_debugger --k 1 --trace /dev/full "$room/three.elf" && exec 8<>"/dev/tcp/127.0.0.1/$port" && cat "$room/lines" >&8 || return 1
    diff "$room/replies" <(timeout 60 cat <&8) && exec 8>&- && ends_debugging 3 $'ultra: X5\n' || return 1
    cp "$room/three.elf" "$room/same.elf" &&
        ends 2 'error: OUT is the same file as FILE' ./ultra debug --trace "$room/same.elf" "$room/same.elf" && cmp "$room/three.elf" "$room/same.elf"
}
check 'a saved session replays to what it showed, and OUT that cannot be written or is FILE is reported' saves_a_session

# Over standard input and output the replies are those over a connection, and no port is announced. The session ends at
# `quit` or at the end of the input. An image from standard input leaves no input for the session.
talks_over_stdio() {
    makes_a_session
    diff "$room/replies" <(./ultra debug --stdio --k 1 --trace "$room/session.trace" "$room/three.elf" <"$room/lines") &&
        ends_the_session "$room/session.trace" &&
        diff <(echo 00010000) <(echo 'reg 0 20' | ./ultra debug --stdio "$room/three.elf") || return 1
    if [ -e /dev/full ]; then
        local ended=0
        echo quit | ./ultra debug --stdio "$room/three.elf" 2>"$room/err" >/dev/full || ended=$?
        [ "$ended" -eq 3 ] && diff <(printf '%s\n' 'ultra: link' "  standard input or output: $no_space_left") "$room/err" || return 1
    fi
    ends_with_code 3 link "standard input or output: $is_a_folder" ./ultra debug --stdio "$room/three.elf" <"$room" &&
        ends 2 'error: standard input is asked for twice' ./ultra debug --stdio - <"$room/three.elf"
}
check 'a session over standard input and output is the one over a connection' talks_over_stdio

# With --port 0 the host chooses a port, which is announced, and at which the debugger listens.
listens_where_the_host_chooses() {
    local port debugger
    : >"$room/listening"
    ./ultra debug --port 0 "$room/three.elf" >"$room/listening" 2>"$room/complaint" &
    debugger=$!
    while kill -0 "$debugger" 2>/dev/null && ! read -r _ port <"$room/listening"; do sleep 0.02; done
    [ "$port" -gt 0 ] && exec 8<>"/dev/tcp/127.0.0.1/$port" && echo quit >&8 && diff <(echo ok) <(timeout 60 cat <&8) && exec 8>&- &&
        ends_debugging 0 ''
}
check 'with --port 0 a debugger announces the port that the host chooses' listens_where_the_host_chooses

# A port on which another debugger listens.
finds_its_port_taken() {
    local port debugger
    start_debugger "$room/three.elf" || return 1
    ends_with_code 3 link "port $port: $address_in_use" ./ultra debug --port "$port" "$room/three.elf" || return 1
    exec 8<>"/dev/tcp/127.0.0.1/$port" && exec 8>&- && ends_debugging 0 ''
}
check 'a debugger reports that its port is taken: link, status 3' finds_its_port_taken

# The client of examples/ prints the replies to its lines. It fails if nobody listens any more, and if the port is not a
# number.
serves_the_client() {
    local port debugger ended=0
    start_debugger --k 1 "$room/three.elf" || return 1
    diff <(printf '%s\n' ok ok 'at 1' halted ok) \
        <(examples/debug_client.py "$port" 'set 0 5 7' 'write 0 20000 2a' 'step 1' cont quit 2>&1) && ends_debugging 0 '' || return 1
    examples/debug_client.py "$port" 'state 0' >"$room/out" 2>"$room/err" || ended=$?
    [ "$ended" -eq 1 ] && [ ! -s "$room/out" ] || return 1
    ended=0
    examples/debug_client.py port 'state 0' >"$room/out" 2>"$room/err" || ended=$?
    [ "$ended" -eq 2 ] && [ ! -s "$room/out" ]
}
# With what nm prints of an image, the client takes names for addresses, and a pc gets its place. It ends with 2 if a name
# is unknown or the file cannot be read.
knows_names() {
    local port debugger ended=0
    printf '%s\n' '00010000 T first' '00010004 t second' '80000000 00000004 B count' '         U missing' >"$room/symbols"
    start_debugger --k 0 "$room/three.elf" || return 1
    diff <(printf '%s\n' ok 'at 0' '00010004 <second>' 00000001 'at 0' '00010008 <second+0x4>' 00000000 ok) \
        <(examples/debug_client.py --symbols "$room/symbols" "$port" 'break @first+4' cont 'reg 0 20' 'reg 0 1' 'step 0' 'reg 0 20' \
            'mem 0 @count 4' quit 2>&1) && ends_debugging 0 '' || return 1
    start_debugger --k 0 "$room/three.elf" || return 1
    examples/debug_client.py --symbols "$room/symbols" "$port" 'break @missing' >"$room/out" 2>"$room/err" || ended=$?
    [ "$ended" -eq 2 ] && [ ! -s "$room/out" ] && grep -q "no symbol 'missing'" "$room/err" && ends_debugging 0 '' || return 1
    ended=0
    examples/debug_client.py --symbols "$room/none" "$port" quit >"$room/out" 2>"$room/err" || ended=$?
    [ "$ended" -eq 2 ] && [ ! -s "$room/out" ]
}
if command -v python3 >/dev/null; then
    check 'examples/debug_client.py prints the replies to its lines, and reports that there is no session' serves_the_client
    check 'examples/debug_client.py takes names for addresses, and names the pc' knows_names
else
    left_out 'the client of the debugger, because python3 is not installed'
fi
