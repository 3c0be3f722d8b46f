# shellcheck shell=bash
# How the launcher `./ultra` builds and compiles. The checks run a copy of it on small crates, with an `rt` that proves
# nothing, and not the program.

# Makes a copy of the launcher with four small crates, one of which the program does not use, and goes to its folder.
# Its `rt` proves nothing. It records its calls in `asked`, fails if there is a file `fails`, and takes long if
# there is a file `slow`. The program that it builds prints its arguments and ends with status 7. The one that `rt try`
# compiles ends with status 5; as the real `rt try` does, it reads the file that the program is given and then removes
# the program.
make_copy() {
    rm -rf "$room/copy"
    mkdir -p "$room/copy/bin" "$room/copy/crates/"{low,other,ultra,beside}/src
    cp ultra "$room/copy"
    cd "$room/copy" || return 1
    printf '# crates\nlow:\nother: low\nultra may_wait=1: other\nbeside: low\n' >crates.txt
    echo line | tee crates/{low,other,beside}/src/lib.rt >crates/ultra/src/main.rt
    echo one >version
    cat >bin/rt <<'END'
#!/usr/bin/env bash
top=$(dirname "$0")/..
[ "$1" != version ] || exec cat "$top/version"
echo "$1 ${PWD##*/}" >>"$top/asked"
if [ "$1" = try ]; then
    [ ! -e "$top/fails" ] || { echo 'run=none proved=no' >&2; exit 1; }
    mkdir -p "$TMPDIR/rt-try/native" && printf '#!/bin/sh\nprintf "%%s\\n" "$@"\nexit 5\n' >"$TMPDIR/rt-try/native/program" || exit 1
    chmod +x "$TMPDIR/rt-try/native/program" && cat "${!#}" && rm -r "$TMPDIR/rt-try"
    exit
fi
sleep 0.2
[ ! -e "$top/slow" ] || sleep 100
[ "$1" != all ] || printf '== %s\nall that rt says of it\nlogic=proved functions=1\n' low other ultra
[ ! -e "$top/fails" ] || { echo 'why it failed'; exit 1; }
[ "$1" != run ] || { mkdir -p out && printf '#!/bin/sh\necho "$@"\nexit 7\n' >out/ultra && chmod +x out/ultra; }
END
    chmod +x bin/rt
    PATH=$PWD/bin:$PATH
}

# ---- building

# launches STATUS OUTPUT: a launch of the copy ends with STATUS and prints OUTPUT.
launches() {
    local ended=0
    ./ultra a 'b  c' >launched 2>told || ended=$?
    cat told
    [ "$ended" -eq "$1" ] && diff <(printf '%s' "$2") launched
}

# `rt` was asked to prove all crates that the program uses, and then to build it.
asked_to_build_all() {
    diff <(printf '%s\n' 'all ultra' 'run ultra') asked
}

builds_once() (
    make_copy && launches 7 $'a b  c\n' && asked_to_build_all &&
        grep '^ultra: 1 of 3 crates proved, 0 min so far, about ' told && grep '^ultra: 3 of 3 crates proved, ' told &&
        launches 7 $'a b  c\n' && [ ! -s told ] && asked_to_build_all
)
check 'the launcher builds once' builds_once

change_version() {
    echo two >version
}

builds_after() (
    make_copy && launches 7 $'a b  c\n' && : >asked && "$@" && launches 7 $'a b  c\n' && asked_to_build_all
)
edit() {
    echo another >>"$1"
}
check 'the launcher builds again if a source has changed' builds_after edit crates/low/src/lib.rt
check 'the launcher builds again if a source is gone' builds_after rm crates/low/src/lib.rt
check 'the launcher builds again if crates.txt has changed' builds_after edit crates.txt

# A program that someone else has built meanwhile, of other sources, is not that of the stamp.
build_by_hand() {
    edit crates/low/src/lib.rt && echo '#!/bin/sh' >crates/ultra/out/ultra && sed -i '$d' crates/low/src/lib.rt
}
check 'the launcher builds again for a program that it has not built' builds_after build_by_hand

# launches_what_is_built: a launch of the copy runs the program, says nothing, and asks `rt` for nothing.
launches_what_is_built() {
    : >"$room/copy/asked"
    launches 7 $'a b  c\n' && [ ! -s told ] && diff /dev/null "$room/copy/asked"
}

# From now on nothing can compute a checksum.
without_checksums() {
    printf '#!/bin/sh\nexit 1\n' >"$room/copy/bin/sha256sum" && chmod +x "$room/copy/bin/sha256sum"
}

# What another toolchain has proved runs, with a line that says so, until it is asked to be built.
runs_after_another_toolchain() (
    make_copy && launches 7 $'a b  c\n' && change_version && : >asked && launches 7 $'a b  c\n' && diff /dev/null asked &&
        diff <(echo 1) <(wc -l <told) && grep '^ultra: the program was proved with another toolchain, one, ' told &&
        ./ultra --build && asked_to_build_all && launches_what_is_built
)
check 'the launcher runs what another toolchain has proved, and --build builds it again' runs_after_another_toolchain

builds_alone() (
    make_copy && ./ultra --build >built 2>told && diff /dev/null built && asked_to_build_all && : >asked &&
        ./ultra --build >built 2>told && diff <(echo 'ultra: the program is up to date') told && diff /dev/null asked &&
        ends 2 'ultra: usage: ultra --build' ./ultra --build run
)
check '--build builds what is not up to date, and runs nothing' builds_alone

# A source that is touched is none that has changed. The next launch does not read the sources again.
runs_after() (
    make_copy && launches 7 $'a b  c\n' && "$@" && launches_what_is_built && without_checksums && launches_what_is_built
)
check 'the launcher does not build again for a source that is touched' runs_after touch crates/low/src/lib.rt crates.txt

leave_editors_files() {
    touch crates/low/src/{.lib.rt.swp,lib.rt~,'#lib.rt#'} && ln -s nobody@nowhere crates/low/src/.#lib.rt
}
check "the launcher does not build again for an editor's files beside a source" runs_after leave_editors_files

# The files of an editor change while a source is edited, and each of them was there before.
ignores_editors_files() (
    make_copy && launches 7 $'a b  c\n' && leave_editors_files && launches_what_is_built && without_checksums &&
        echo more | tee crates/low/src/{.lib.rt.swp,lib.rt~} >'crates/low/src/#lib.rt#' && launches_what_is_built
)
check "the launcher does not read the sources for a change of an editor's files" ignores_editors_files

# copies COMMAND WORD ..: the command copies the built copy to `twin`, and the launcher there builds nothing.
copies() (
    make_copy && launches 7 $'a b  c\n' && mkdir ../twin && "$@" && cd ../twin && launches_what_is_built && without_checksums &&
        launches_what_is_built
)
with_new_times() {
    cp -r . ../twin
}
with_old_times() {
    cp -a . ../twin
}
by_tar() {
    tar -c . | tar -xm -C ../twin
}
with_oldest_stamp() {
    cp -r . ../twin && find ../twin/crates -exec touch {} +
}
check 'a copy of a checkout is not built again' copies with_new_times
check 'a copy of a checkout that keeps times is not built again' copies with_old_times
check 'a copy of a checkout by tar is not built again' copies by_tar
check 'a copy of a checkout with sources newer than the program is not built again' copies with_oldest_stamp

# In a copy every file may be older than the stamp, also a source that had changed.
builds_a_changed_copy() (
    make_copy && launches 7 $'a b  c\n' && edit crates/low/src/lib.rt && cp -r . ../twin && touch ../twin/out/built && cd ../twin &&
        : >"$room/copy/asked" && launches 7 $'a b  c\n' && diff <(printf '%s\n' 'all ultra' 'run ultra') "$room/copy/asked"
)
check 'a copy of a checkout with a changed source is built' builds_a_changed_copy

reports_a_failed_build() (
    make_copy && touch fails && launches 3 '' && grep '^why it failed$' told && ! grep run asked && rm fails &&
        launches 7 $'a b  c\n'
)
check 'the launcher reports why a build failed' reports_a_failed_build

builds_for_two() (
    make_copy || exit 1
    ./ultra first >one 2>&1 &
    ./ultra second >two 2>&1
    wait
    asked_to_build_all && grep '^first$' one && grep '^second$' two
)
check 'two launches at once build once' builds_for_two

# An interrupted launch stops the `rt` that it started, and the next launch builds.
is_interrupted() (
    make_copy && touch slow || exit 1
    timeout --signal TERM 1 ./ultra a >launched 2>told
    cat told
    grep '^ultra: interrupted' told && ! pgrep -f "$PWD/bin/rt" && rm slow && : >asked && launches 7 $'a b  c\n' && asked_to_build_all
)
check 'an interrupted launch stops its build, and the next launch builds' is_interrupted

misses_its_toolchain() (
    make_copy || exit 1
    rm bin/rt
    for tool in bash diff find flock grep mkdir mv readlink sed tail; do
        ln -s "$(command -v "$tool")" "bin/$tool"
    done
    PATH=$PWD/bin launches 3 '' && grep 'there is no .rt. on the PATH' told
)
check 'the launcher reports that there is no toolchain' misses_its_toolchain

# ---- quick launches

# quickly STATUS WORD ..: a quick launch of the copy ends with STATUS, and says that nothing is proved.
quickly() {
    local status=$1 ended=0
    shift
    ./ultra --quick "$@" >launched 2>told || ended=$?
    cat told
    [ "$ended" -eq "$status" ] && grep '^ultra: NOT PROVED' told
}

# compiled COUNT: `rt` was asked COUNT times to compile the program, and for nothing else.
compiled() {
    diff <(yes 'try ultra' | head -n "$1") asked
}

compiles_once() (
    make_copy && quickly 5 run --trace t 'a b' '' && diff <(printf '%s\n' run --trace t 'a b' '') launched &&
        grep 'ultra: compiling' told && quickly 5 help && diff <(echo help) launched && ! grep 'ultra: compiling' told && compiled 1
)
check 'a quick launch compiles once, and passes on the words, the output and the status of the program' compiles_once

compiles_after() (
    make_copy && quickly 5 a && : >asked && "$@" && quickly 5 a && diff <(echo a) launched && compiled 1
)
check 'a quick launch compiles again if a source has changed' compiles_after edit crates/low/src/lib.rt
check 'a quick launch compiles again with another toolchain' compiles_after change_version

compiles_for_two() (
    make_copy || exit 1
    ./ultra --quick first >one 2>&1 &
    ./ultra --quick second >two 2>&1
    wait
    compiled 1 && grep '^first$' one && grep '^second$' two
)
check 'two quick launches at once compile once' compiles_for_two

reports_a_failed_compilation() (
    make_copy && touch fails && quickly 3 words a && grep '^run=none' told && rm fails && quickly 5 a && diff <(echo a) launched
)
check 'a quick launch reports why the program does not compile, with status 3' reports_a_failed_compilation

compiles_no_copy() (
    make_copy && quickly 5 a && cp -r . ../twin && cd ../twin && touch crates/low/src/lib.rt && : >"$room/copy/asked" &&
        quickly 5 a && diff /dev/null "$room/copy/asked"
)
check 'a quick launch of a copy does not compile again' compiles_no_copy

runs_quickly_once_it_is_built() (
    make_copy && launches 7 $'a b  c\n' && ended=0 && { ./ultra --quick a >launched 2>told || ended=$?; } &&
        [ "$ended" -eq 7 ] && diff <(echo a) launched && [ ! -s told ]
)
check 'a quick launch runs the proved program if it is built' runs_quickly_once_it_is_built

# ---- a checkout of another user

# launches_for_another STATUS [--quick]: a user who does not own the copy launches it.
launches_for_another() {
    local status=$1 ended=0 other=()
    shift
    chmod a+rx "$room" && chmod -R a+rX,a-w . || return 1
    [ "$(id -u)" -ne 0 ] || other=(setpriv --reuid 65534 --regid 65534 --clear-groups)
    "${other[@]}" ./ultra "$@" a >"$room/launched" 2>"$room/told" || ended=$?
    cat "$room/told"
    chmod -R u+w .
    [ "$ended" -eq "$status" ]
}

runs_for_another() (
    make_copy && launches 7 $'a b  c\n' && launches_for_another 7 && diff <(echo a) "$room/launched" && [ ! -s "$room/told" ]
)

cannot_build_for_another() (
    make_copy && launches_for_another 3 && diff <(echo 1) <(wc -l <"$room/told") && grep 'cannot be written' "$room/told"
)

# In a folder of another user nothing can be kept.
compiles_for_another() (
    make_copy && launches_for_another 5 --quick && diff <(echo a) "$room/launched" && [ ! -e out ]
)
if [ "$(id -u)" -ne 0 ] || command -v setpriv >/dev/null; then
    check 'a checkout of another user runs the program if it is built' runs_for_another
    check 'the launcher reports that it cannot build in a checkout of another user, with status 3' cannot_build_for_another
    check 'a quick launch compiles and runs in a checkout of another user' compiles_for_another
else
    left_out 'a checkout of another user, because root cannot become another user without setpriv'
fi
