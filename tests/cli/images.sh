# shellcheck shell=bash
# Texts and images: `ultra asm`, `ultra check` and `ultra dis`.

# ---- assembler and disassembler

# The image of the text `ebreak`: ELF header, program header, code.
ebreak_image() {
    printf %s 7f454c46010101000000000000000000 0200f300010000000000010034000000 00000000000000003400200001000000 \
        00000000 01000000540000000000010000000100 04000000040000000500000001000000 73001000
}

assembles_ebreak() {
    printf ebreak >"$room/ebreak.s"
    assembles_to "$room/ebreak.s" "$room/ebreak.elf" &&
        diff <(ebreak_image) <(od -An -v -tx1 "$room/ebreak.elf" | tr -d ' \n') &&
        diff <(echo '00010000 00100073 ebreak') <(./ultra dis "$room/ebreak.elf")
}
check 'ebreak is assembled to the bytes that were worked out by hand, and disassembled' assembles_ebreak

# The words are encoded by hand from the listing of Zalrsc in the RISC-V manual: lr.w.aqrl a0, (a2); sc.w a0, a1, (a2);
# and lr.w with an rs2, which is none.
names_missing_instructions() {
    printf '.word 0x1606252f, 0x18b6252f, 0x1016252f\necall\n' >"$room/missing.s"
    printf '%s\n' '00010000 1606252f - # lr.w' '00010004 18b6252f - # sc.w' '00010008 1016252f -' '0001000c 00000073 ecall' >"$room/named"
    assembles_to "$room/missing.s" "$room/missing.elf" && diff "$room/named" <(./ultra dis --comments "$room/missing.elf") &&
        diff <(sed 's/ # .*//' "$room/named") <(./ultra dis "$room/missing.elf")
}
check 'dis --comments names lr.w and sc.w' names_missing_instructions

# The code of an example's image is that of the .dis file next to its text.
disassembles_as_it_should() {
    assembles_to "$1" "$room/example.elf" && diff "${1%.s}.dis" <(./ultra dis "$room/example.elf" 2>&1)
}
for it in examples/*.s; do
    check "$it is assembled, and disassembled to its .dis file" disassembles_as_it_should "$it"
done

# ---- faults of texts

# A text with a fault makes no OUT.
refuses_a_bad_text() {
    printf 'ebreak\naddi x1, x0, 2048\n' >"$room/bad.s"
    rm -f "$room/none.elf"
    ends_with_code 2 'A3 line 2' "$room/bad.s" ./ultra asm "$room/bad.s" "$room/none.elf" && [ ! -e "$room/none.elf" ]
}
check 'asm refuses a text with a fault: A3 and its line, status 2, and no OUT' refuses_a_bad_text

# All faults of a text that has eight, and of one that has none.
lists_the_faults() {
    diff <(cat examples/broken/several.out && echo 'status 1') <(with_status ./ultra check examples/broken/several.s 2>&1) &&
        diff <(printf 'no faults\nstatus 0\n') <(with_status ./ultra check examples/fetch_and_add_100.s 2>&1)
}
check 'check lists all faults of a text, with status 1' lists_the_faults

# Of each text in examples/broken, `check` lists the fault that `asm` reports. In the other examples it finds none.
agrees_with_asm() {
    local text told
    for text in examples/broken/*.s; do
        told=$(./ultra asm "$text" "$room/none.elf" 2>&1)
        [[ $told =~ ^ultra:\ (A[1-6])\ line\ ([0-9]+)$'\n'"  $text"$ ]] || continue
        ./ultra check "$text" >"$room/out"
        grep -qE "^line ${BASH_REMATCH[2]} column [0-9]+: ${BASH_REMATCH[1]}[ :]" "$room/out" || { echo "$text"; return 1; }
    done
    for text in examples/*.s examples/algorithms/*.s examples/algorithms/wrong/*.s examples/{explore,published}/*.s; do
        echo 'no faults' | diff - <(./ultra check "$text" 2>&1) || { echo "$text"; return 1; }
    done
}
check 'check lists the fault that asm reports, and none of a sound text' agrees_with_asm

refuses_a_text_not_in_utf8() {
    printf 'ebreak # \377\n' >"$room/no_text.s"
    rm -f "$room/none.elf"
    ends_with_code 3 link "$room/no_text.s" ./ultra asm "$room/no_text.s" "$room/none.elf" && [ ! -e "$room/none.elf" ]
}
check 'asm refuses a text that is not UTF-8: link, status 3, and no OUT' refuses_a_text_not_in_utf8

refuses_a_missing_text() {
    ends_with_code 3 link "$room/none.s: $no_such_file" ./ultra asm "$room/none.s" "$room/none.elf"
}
check 'asm reports a missing text: link, status 3' refuses_a_missing_text

# A file that nobody may read. Root can read it nevertheless, so root tries as another user.
refuses_a_forbidden_file() {
    local reader=()
    [ "$(id -u)" -ne 0 ] || reader=(setpriv --reuid 65534 --clear-groups)
    echo ebreak >"$room/forbidden.s" && chmod 000 "$room/forbidden.s" && chmod 755 "$room" || return 1
    "${reader[@]}" test -x crates/ultra/out/ultra || { echo 'another user cannot reach the program'; return 0; }
    ends_with_code 3 link "$room/forbidden.s: $permission_denied" "${reader[@]}" crates/ultra/out/ultra check "$room/forbidden.s"
}
check 'check reports a text that the user may not read: link, status 3' refuses_a_forbidden_file

# ---- OUT

refuses_an_image_in_no_folder() {
    ends_with_code 3 I9 "$room/none/ebreak.elf: $no_such_file" ./ultra asm "$room/ebreak.s" "$room/none/ebreak.elf"
}
check 'asm reports a missing folder for OUT: I9, status 3' refuses_an_image_in_no_folder

refuses_a_full_disk_for_an_image() {
    ends_with_code 3 I9 "/dev/full: $no_space_left" ./ultra asm "$room/ebreak.s" /dev/full
}
check 'asm reports a full disk for OUT: I9, status 3' refuses_a_full_disk_for_an_image

# OUT names FILE by the same path, by another path, by a symbolic link or by a hard link: FILE stays as it was.
keeps_what_it_reads() {
    local it out line='error: OUT is the same file as FILE'
    mkdir -p "$room/kept" && cp examples/fetch_and_add_100.s "$room/kept/a.s" && ./ultra asm "$room/kept/a.s" "$room/kept/a.elf" || return 1
    cp "$room/kept/a.elf" "$room/kept/before.elf"
    for it in s elf; do
        ln -sf "a.$it" "$room/kept/link.$it" && ln -f "$room/kept/a.$it" "$room/kept/second.$it" || return 1
    done
    for out in a "../kept/a" link second; do
        ends 2 "$line" ./ultra asm "$room/kept/a.s" "$room/kept/$out.s" &&
            ends 2 "$line" ./ultra run --trace "$room/kept/$out.elf" "$room/kept/a.elf" || return 1
    done
    cmp examples/fetch_and_add_100.s "$room/kept/a.s" && cmp "$room/kept/before.elf" "$room/kept/a.elf" &&
        ./ultra asm "$room/kept/a.s" "$room/kept/before.elf" && cmp "$room/kept/before.elf" "$room/kept/a.elf" || return 1
    # The trace of the hunt's first run would overwrite the image.
    cp "$room/kept/a.elf" "$room/kept/hunted1.trace" &&
        ends 2 "error: $room/kept/hunted1.trace exists: use --overwrite" \
            ./ultra hunt --k 1 --runs 1 --trace "$room/kept/hunted" "$room/kept/hunted1.trace" &&
        ends_with_code 3 X5 "$room/kept/hunted1.trace: entity already exists" \
            ./ultra hunt --overwrite --k 1 --runs 1 --trace "$room/kept/hunted" "$room/kept/hunted1.trace" &&
        cmp "$room/kept/a.elf" "$room/kept/hunted1.trace"
}
check 'OUT that is FILE itself is refused, with status 2, and FILE stays as it was' keeps_what_it_reads

# ---- faults of images

refuses_a_missing_image() {
    ends_with_code 3 link "$room/none.elf: $no_such_file" ./ultra dis "$room/none.elf"
}
check 'dis reports a missing image: link, status 3' refuses_a_missing_image

refuses_an_unreadable_image() {
    ends_with_code 3 I9 "$room: $is_a_folder" ./ultra dis "$room"
}
check 'dis reports an image that cannot be read: I9, status 3' refuses_an_unreadable_image

refuses_a_large_image() {
    truncate -s 1048577 "$room/large.elf" && ends_with_code 2 I8 "$room/large.elf" ./ultra dis "$room/large.elf"
}
check 'dis refuses an image of one byte more than 1 MiB: I8, status 2' refuses_a_large_image

refuses_a_cut_image() {
    head -c 51 "$room/ebreak.elf" >"$room/cut.elf"
    ends_with_code 2 I1 "$room/cut.elf" ./ultra dis "$room/cut.elf"
}
check 'dis refuses an image that is cut off: I1, status 2' refuses_a_cut_image

# A text where an image is wanted: what makes it one is said.
refuses_a_text() {
    local text=examples/algorithms/barrier.s
    ends_with_code 2 I2 "$text: a text, which \`ultra asm $text OUT\` makes an image" ./ultra run "$text" &&
        printf 'ebreak\n' >"$room/short.s" &&
        ends_with_code 2 I1 "$room/short.s: a text, which \`ultra asm $room/short.s OUT\` makes an image" ./ultra explore "$room/short.s"
}
check 'run and explore of a text say what makes it an image: I2, I1, status 2' refuses_a_text

# An image with more shared words than the machine has.
reads_for_its_words() {
    printf 'ebreak\n.shared\n.word 1, 2\n' >"$room/shared.s"
    assembles_to "$room/shared.s" "$room/shared.elf" &&
        ends_with_code 2 I5 "$room/shared.elf" ./ultra dis --words 1 "$room/shared.elf" &&
        diff <(echo '00010000 00100073 ebreak') <(./ultra dis --words 2 "$room/shared.elf")
}
check 'dis refuses an image with more shared words than the machine: I5, status 2' reads_for_its_words

refuses_no_words() {
    local ended=0
    ./ultra dis --words 0 "$room/ebreak.elf" >"$room/out" 2>"$room/err" || ended=$?
    [ "$ended" -eq 2 ] && [ ! -s "$room/out" ] && grep "invalid value '0' for '--words <NUMBER>': 0 is not in 1..=262144" "$room/err"
}
check 'dis refuses a machine without shared words, with status 2' refuses_no_words

code_to_a_full_disk() {
    ./ultra dis "$room/ebreak.elf" >/dev/full
}
check 'dis reports a full disk: link, status 3' ends_with_code 3 link "standard output: $no_space_left" code_to_a_full_disk
