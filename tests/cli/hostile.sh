# shellcheck shell=bash
# Hostile input: files changed at random, files that are cut off, and a header with a false claim.

# A minute of examples changed at random, random bytes and random lines. An input that `ultra` answers wrongly stays in
# bench/out/hostile/.
survives_hostile_input() {
    bench/hostile 60s
}
check 'ultra answers a minute of hostile input with coded faults, in bounded memory' survives_hostile_input

# An image and a trace of two processors, cut off at each length. The image has no complete header (I1) or lacks bytes
# that its headers promise (I4), and the trace lacks steps (X1).
refuses_each_cut() {
    local length most told program=crates/ultra/out/ultra
    printf 'lui x5, 0x80000\naddi x6, x0, 1\namoadd.w x7, x6, (x5)\necall\n' >"$room/add.s"
    assembles_to "$room/add.s" "$room/add.elf" && "$program" run --sweep --k 1 --trace "$room/add.trace" "$room/add.elf" >"$room/out" || return 1
    most=$(stat -c %s "$room/add.elf")
    for ((length = 0; length < most; length++)); do
        head -c "$length" "$room/add.elf" >"$room/cut.elf"
        told=$([ "$length" -lt 84 ] && echo I1 || echo I4)
        ends_with_code 2 "$told" "$room/cut.elf" "$program" dis "$room/cut.elf" &&
            ends_with_code 2 "$told" "$room/cut.elf" "$program" run "$room/cut.elf" || return 1
    done
    most=$(stat -c %s "$room/add.trace")
    [ "$most" -gt 100 ] || return 1
    for ((length = 0; length < most; length++)); do
        head -c "$length" "$room/add.trace" >"$room/cut.trace"
        ends_with_code 2 X1 "$room/cut.trace" "$program" replay "$room/cut.trace" "$room/add.elf" || return 1
    done
}
check 'an image and a trace that are cut at any length are refused: I1 or I4, and X1, status 2' refuses_each_cut

# A header claims the greatest number of steps, and none follows. The program must take less memory than they would
# need, 8 bytes each.
refuses_a_claim() {
    printf 'ULTR\x01\x01\x04\x04\x00\x00\x40\x00' >"$room/claim.trace"
    (ulimit -v 32768 && ends_with_code 2 X1 "$room/claim.trace" crates/ultra/out/ultra replay "$room/claim.trace" "$room/example.elf")
}
check 'a header that claims four million steps is refused in little memory: X1, status 2' refuses_a_claim
