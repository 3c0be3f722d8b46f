# shellcheck shell=bash
# Installs the program and removes it: `./ultra --install`, `./ultra --uninstall` and the Makefile. As in launcher.sh, the
# checks run a small copy of the checkout, with an `rt` that proves nothing.

# Makes a copy of the checkout that is built, with few documents and examples, and goes to its folder.
make_built_copy() {
    make_copy && cp -r "$top"/{Makefile,packaging,README.md,CHANGELOG.md,CONTRIBUTING.md} . && mkdir -p docs examples/c/out &&
        echo page >docs/PAGE.md && echo text >examples/c/text.c && echo built >examples/c/out/text.elf &&
        touch docs/.PAGE.md.swp docs/PAGE.md~ && launches 7 $'a b  c\n' && : >asked
}

# The files and folders below a folder, each file with its checksum.
contents() {
    (cd "$1" && find . -type d | sort && find . -type f -print0 | sort -z | xargs -0 sha256sum)
}

# installed_are FOLDER: all that an installation of the copy has there, and no more.
installed_are() {
    diff <(cd "$1" && find . -type f | sort) <(sort <<'END_OF_LIST'
./bin/ultra
./share/bash-completion/completions/ultra
./share/doc/ultra/CHANGELOG.md
./share/doc/ultra/CONTRIBUTING.md
./share/doc/ultra/README.md
./share/doc/ultra/docs/PAGE.md
./share/doc/ultra/examples/c/text.c
./share/doc/ultra/installed
./share/fish/vendor_completions.d/ultra.fish
./share/man/man1/ultra.1
./share/zsh/site-functions/_ultra
END_OF_LIST
    )
}

# says TEXT STATUS WORD ..: a launch of the copy with these words ends with the status, prints nothing, and TEXT is in what
# it says.
says() {
    local text=$1 status=$2 ended=0
    shift 2
    ./ultra "$@" >"$room/out" 2>"$room/told" || ended=$?
    cat "$room/told"
    diff /dev/null "$room/out" && [ "$ended" -eq "$status" ] && grep -qF -- "$text" "$room/told"
}

# ---- what is installed

installs_and_removes() (
    make_built_copy && mkdir -p ../place/bin ../place/share/man && contents ../place >before && says 'it needs ' 0 --install ../place &&
        installed_are ../place && cmp crates/ultra/out/ultra ../place/bin/ultra && diff /dev/null asked &&
        says 'removed 10 files' 0 --uninstall ../place && diff before <(contents ../place)
)
check 'an installation has the program, completions, man page, documents and examples, and is removed' installs_and_removes

installs_to_a_new_folder() (
    make_built_copy && says 'it needs ' 0 --install "$room/new place" && installed_are "$room/new place" && diff <(echo 755) <(stat -c %a "$room/new place/bin/ultra") &&
        diff <(echo 644) <(stat -c %a "$room/new place/share/man/man1/ultra.1") && says 'removed' 0 --uninstall "$room/new place" &&
        [ ! -e "$room/new place" ]
)
check 'an installation makes its folders, and its removal takes them away' installs_to_a_new_folder

# What the second installation has no more is removed, also its folder.
updates() (
    make_built_copy && says 'it needs ' 0 --install ../place && rm -r examples/c && echo new >examples/new.s && echo more >>docs/PAGE.md &&
        says 'it needs ' 0 --install ../place && [ ! -e ../place/share/doc/ultra/examples/c ] && cmp docs/PAGE.md ../place/share/doc/ultra/docs/PAGE.md &&
        cmp examples/new.s ../place/share/doc/ultra/examples/new.s && says 'removed 10 files' 0 --uninstall ../place && [ ! -e ../place ]
)
check 'a second installation replaces the first' updates

# ---- what is not its own

# The launcher names the file that is there, installs nothing, and does so only with --overwrite.
keeps_a_file() (
    make_built_copy && mkdir -p ../place/bin && "$@" >../place/bin/ultra && contents ../place >before &&
        says 'place/bin/ultra exists, and is not of an installation of ultra' 3 --install ../place && diff before <(contents ../place) &&
        says 'place/bin/ultra exists, and is not of an installation of ultra' 0 --install ../place --overwrite && installed_are ../place
)
check 'an installation replaces a file of another origin only with --overwrite' keeps_a_file echo theirs
check 'an installation takes an equal file for one of another origin' keeps_a_file cat crates/ultra/out/ultra

keeps_changes() (
    page=place/share/man/man1/ultra.1
    make_built_copy && says 'it needs ' 0 --install ../place && echo mine >>../$page && says "$page has been changed since" 3 --install ../place &&
        tail -n 1 ../$page | grep -x mine && says "$page has been changed since it was installed, and is left" 0 --uninstall ../place &&
        diff <(echo "../$page") <(find ../place -type f)
)
check 'a file that was changed after the installation is neither replaced nor removed' keeps_changes

keeps_a_link() (
    make_built_copy && mkdir -p ../place/bin && echo theirs >../theirs && ln -s ../../theirs ../place/bin/ultra &&
        says 'place/bin/ultra exists' 3 --install ../place && says 'they are replaced' 0 --install ../place --overwrite &&
        diff <(echo theirs) ../theirs && [ ! -L ../place/bin/ultra ]
)
check 'an installation with --overwrite replaces a link, and not the file that it leads to' keeps_a_link

# ---- refusals

refuses_what_is_not_built() (
    make_built_copy && rm -r crates/ultra/out && says 'the program is not built yet, so nothing is installed: `./ultra --build` proves' 3 --install ../place &&
        [ ! -e ../place ] && diff /dev/null asked
)
check 'an installation of what is not built is refused, status 3' refuses_what_is_not_built

refuses_a_changed_source() (
    make_built_copy && edit crates/low/src/lib.rt && says 'a source has changed, so nothing is installed' 3 --install ../place && [ ! -e ../place ]
)
check 'an installation is refused after a source has changed, status 3' refuses_a_changed_source

# What `./ultra --quick` has compiled is not proved.
refuses_what_is_compiled() (
    make_built_copy && rm -r crates/ultra/out && quickly 5 a && says 'nothing is installed' 3 --install ../place && [ ! -e ../place ]
)
check 'an installation of what is compiled without proofs is refused, status 3' refuses_what_is_compiled

refuses_a_wrong_place() (
    make_built_copy && echo file >../place && says 'place/bin cannot be written, so nothing is installed' 3 --install ../place &&
        diff <(echo file) ../place && says 'place/share/doc/ultra/installed, so nothing is removed' 3 --uninstall ../place &&
        mkdir -p ../folder/bin/ultra && says 'folder/bin/ultra is a folder' 3 --install ../folder
)
check 'an installation to a place that cannot have it is refused, status 3' refuses_a_wrong_place

refuses_words() (
    make_built_copy && for words in --install --uninstall '--install --overwrite' '--install a b' '--uninstall a --overwrite'; do
        # shellcheck disable=SC2086
        says "usage: ultra ${words%% *} PREFIX" 2 $words || exit 1
    done
)
check 'an installation with wrong words: how it is used, status 2' refuses_words

# A user to whom the place does not belong.
refuses_another_user() (
    other=()
    make_built_copy && mkdir ../place && chmod 755 ../place && chmod a+rx "$room" && chmod -R a+rX . || exit 1
    if [ "$(id -u)" -eq 0 ]; then
        other=(setpriv --reuid 65534 --regid 65534 --clear-groups)
    else
        chmod a-w ../place
    fi
    "${other[@]}" ./ultra --install "$room/place" >"$room/told" 2>&1
    ended=$?
    cat "$room/told"
    [ "$ended" -eq 3 ] && grep -q 'cannot be written, so nothing is installed' "$room/told" && diff /dev/null <(ls -A ../place)
)
if [ "$(id -u)" -ne 0 ] || command -v setpriv >/dev/null; then
    check 'an installation to a place of another user is refused, status 3' refuses_another_user
else
    left_out 'an installation to a place of another user, for root cannot become one without setpriv'
fi

# ---- make

installs_by_make() (
    make_built_copy && make >told 2>&1 && grep 'up to date' told && make install PREFIX=/usr DESTDIR="$room/stage" >told 2>&1 &&
        installed_are "$room/stage/usr" && make uninstall PREFIX=/usr DESTDIR="$room/stage" >told 2>&1 && [ ! -e "$room/stage/usr" ]
)
if command -v make >/dev/null; then
    check 'make, make install and make uninstall' installs_by_make
else
    left_out 'the Makefile, for there is no make'
fi
