# shellcheck shell=bash
# Installs and removes the program. The launcher sources this file for
#
#     ./ultra --install PREFIX [--overwrite]
#     ./ultra --uninstall PREFIX
#
# A record below PREFIX lists each file that was installed with its checksum, and each folder that was made for it. A file
# that is not in the record, or that has changed since, is never replaced without --overwrite, and never removed.

record=share/doc/ultra/installed

# Sets `prefix` from the word of the command line, as a path that does not depend on the current folder.
set_prefix() {
    prefix=$1
    [[ $prefix = /* ]] || prefix=$PWD/$prefix
    while [[ $prefix = */ ]]; do prefix=${prefix%/}; done
}

# Prints each file of the checkout that is installed, a tab, and its path below PREFIX. Their last names are the same.
files_to_install() {
    local kept=(-name out -prune -o ! \( "${editors[@]}" -o -name '*.o' -o -name '*.elf' -o -name '*.map' \) -type f)
    printf 'crates/ultra/out/ultra\tbin/ultra\n'
    find packaging/share "${kept[@]}" -printf 'packaging/share/%P\tshare/%P\n'
    find README.md CHANGELOG.md CONTRIBUTING.md docs examples "${kept[@]}" -printf '%p\tshare/doc/ultra/%p\n'
}

# checksums_in FOLDER ARRAY PATH ..: sets ARRAY[PATH] to the checksum of each of these files of FOLDER that exists.
checksums_in() {
    local folder=$1 checksum path there=()
    local -n checksums=$2
    for path in "${@:3}"; do
        [ ! -f "$folder/$path" ] || [ -L "$folder/$path" ] || there+=("$path")
    done
    [ "${#there[@]}" -eq 0 ] || while read -r checksum path; do
        checksums[$path]=$checksum
    done < <(cd "${folder:-/}" && sha256sum -- "${there[@]}")
}

# Reads the record into `recorded`, a checksum for each path, and `made`, the folders.
read_record() {
    local kind word path
    recorded=() made=()
    [ -f "$prefix/$record" ] || return 1
    while read -r kind word path; do
        [[ /$word/$path/ != */../* ]] || continue
        case $kind in
            file) recorded[$path]=$word ;;
            folder) made+=("$word${path:+ $path}") ;;
        esac
    done <"$prefix/$record"
}

# write_record ARRAY: writes a record of the checksums of ARRAY and of the folders in `made`.
write_record() {
    local -n listed=$1
    local path
    {
        for path in "${made[@]}"; do printf 'folder %s\n' "$path"; done
        for path in "${!listed[@]}"; do printf 'file %s %s\n' "${listed[$path]}" "$path"; done | sort -k 3
    } >"$prefix/$record"
}

# Removes the folders in `made` that are empty, the deepest first, and leaves the others in `made`.
remove_folders() {
    local at path left=()
    for ((at = ${#made[@]} - 1; at >= 0; at--)); do
        path=$prefix/${made[at]}
        rmdir "${path%/.}" 2>/dev/null || left=("${made[at]}" "${left[@]}")
    done
    made=("${left[@]}")
}

# Makes a folder below PREFIX with those above it, or PREFIX itself, and adds each that it makes to `made`. `.` is PREFIX.
make_folder() {
    local folder=$1
    if [ ! -d "$prefix/$folder" ]; then
        if [ "$folder" = . ]; then
            mkdir -p "$prefix" 2>/dev/null || return 1
            made+=(.)
        else
            [[ $folder = */* ]] && set -- "${folder%/*}" || set -- .
            make_folder "$1" && mkdir "$prefix/$folder" 2>/dev/null || return 1
            made+=("$folder")
        fi
    fi
    [ -w "$prefix/$folder" ]
}

# What the program needs when it runs, as a text.
needs_of() {
    local libraries version
    if [ "$(head -c 4 "$1" | tail -c 3)" = ELF ] && hash readelf 2>/dev/null; then
        libraries=$(readelf -d "$1" | sed -n 's/.*(NEEDED).*\[\(.*\)\].*/\1/p')
        version=$(readelf -V "$1" | grep -oE 'GLIBC_[0-9.]+' | sort -Vu | tail -n 1)
        echo "${libraries:+these libraries of the system: ${libraries//$'\n'/, }${version:+, with ${version/_/ } or later}}"
    else
        echo 'the libraries of the system that ldd lists'
    fi
}

install_program() {
    local overwrite='' from to folder path clashes=() obsolete=() mode failed=''
    local -A source_of=() found=() recorded=() wanted=() both=() folders=() sets=()
    local -a made=() names=()
    [ $# -eq 1 ] || { [ $# -eq 2 ] && [ "$2" = --overwrite ] && overwrite=1; } || misused '--install PREFIX [--overwrite]'
    [[ -n $1 && $1 != -* ]] || misused '--install PREFIX [--overwrite]'
    set_prefix "$1"
    cd "$top" || exit 3
    look
    if [ -n "$reason" ]; then
        say "$reason, so nothing is installed: \`./ultra --build\` proves and builds it first"
        exit 3
    fi
    umask 022
    while IFS=$'\t' read -r from to; do source_of[$to]=$from; done < <(files_to_install)
    # The checksum of each file, and the files that are in the way.
    checksums_in "$top" found "${source_of[@]}"
    for to in "${!source_of[@]}"; do
        wanted[$to]=${found[${source_of[$to]}]-}
        if [ -z "${wanted[$to]}" ]; then
            say "$top/${source_of[$to]} cannot be read, so nothing is installed"
            exit 3
        fi
    done
    read_record
    found=()
    checksums_in "$prefix" found "${!source_of[@]}" "${!recorded[@]}"
    for to in "${!source_of[@]}"; do
        if [ -d "$prefix/$to" ] && [ ! -L "$prefix/$to" ]; then
            say "$prefix/$to is a folder, so nothing is installed"
            exit 3
        elif [ -e "$prefix/$to" ] || [ -L "$prefix/$to" ]; then
            [ -n "${found[$to]-}" ] && [ "${found[$to]}" = "${recorded[$to]-}" ] || clashes+=("$to")
        fi
    done
    if [ "${#clashes[@]}" -gt 0 ]; then
        for to in "${clashes[@]}"; do
            if [ -n "${recorded[$to]-}" ]; then
                say "$prefix/$to has been changed since it was installed"
            else
                say "$prefix/$to exists, and is not of an installation of ultra"
            fi
        done
        [ -n "$overwrite" ] || { say 'nothing is installed: with --overwrite these files are replaced' && exit 3; }
        say 'with --overwrite they are replaced'
    fi
    for to in "${!source_of[@]}"; do folders[${to%/*}]=1; done
    for folder in $(printf '%s\n' "${!folders[@]}" | sort); do
        if ! make_folder "$folder"; then
            remove_folders
            say "$prefix/$folder cannot be written, so nothing is installed"
            exit 3
        fi
    done
    # If the installation fails from here on, the record has what was there and what may be there now.
    for path in "${!recorded[@]}"; do both[$path]=${recorded[$path]}; done
    for path in "${!wanted[@]}"; do both[$path]=${wanted[$path]}; done
    write_record both 2>/dev/null || failed=1
    for to in "${!source_of[@]}"; do
        mode=644
        [ ! -x "${source_of[$to]}" ] || mode=755
        sets["$mode ${to%/*}"]+=${source_of[$to]}$'\n'
    done
    for to in "${!sets[@]}"; do
        mapfile -t names < <(printf '%s' "${sets[$to]}")
        [ -n "$failed" ] || install -m "${to%% *}" -t "$prefix/${to#* }" -- "${names[@]}" || failed=1
    done
    if [ -n "$failed" ]; then
        say "the installation is not complete: \`./ultra --uninstall $1\` removes what is there"
        exit 3
    fi
    # What an earlier installation had and this one has not.
    for path in "${!recorded[@]}"; do
        [ -n "${wanted[$path]-}" ] || [ "${found[$path]-}" != "${recorded[$path]}" ] || obsolete+=("$prefix/$path")
    done
    if [ "${#obsolete[@]}" -gt 0 ]; then
        rm -f -- "${obsolete[@]}"
        remove_folders
    fi
    write_record wanted || exit 3
    [ -z "$other" ] || say "$other"
    say "installed in $prefix: the program, completions, a man page, documents and examples (${#wanted[@]} files)"
    path=$(needs_of "$program")
    say "it needs ${path:-no library}, and nothing of the toolchain"
}

uninstall_program() {
    local path removed=() failed=''
    local -A recorded=() found=()
    local -a made=()
    [ $# -eq 1 ] && [[ -n $1 && $1 != -* ]] || misused '--uninstall PREFIX'
    set_prefix "$1"
    if ! read_record; then
        say "there is no $prefix/$record, so nothing is removed"
        exit 3
    fi
    checksums_in "$prefix" found "${!recorded[@]}"
    for path in "${!recorded[@]}"; do
        if [ "${found[$path]-}" = "${recorded[$path]}" ]; then
            rm -f -- "$prefix/$path" 2>/dev/null && removed+=("$path") || failed=1
        elif [ -e "$prefix/$path" ] || [ -L "$prefix/$path" ]; then
            say "$prefix/$path has been changed since it was installed, and is left"
        fi
    done
    if [ -n "$failed" ]; then
        say "$prefix cannot be written, so not all is removed"
        exit 3
    fi
    rm -f -- "$prefix/$record" || exit 3
    remove_folders
    say "removed ${#removed[@]} files from $prefix"
}
