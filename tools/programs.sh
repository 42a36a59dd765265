# Which program to run, for ./farm and tools/install: that of dist/ if it was built from the sources as they are, or one that was built here. `top` is the
# folder of the repository.

# The line of dist/programs, if its program starts on this machine: the program's name, its sum, and the digest of its sources.
dist_line() {
    [ "$(uname -s) $(uname -m)" = "Linux x86_64" ] && [ -x "$top/dist/farm" ] && grep "^farm " "$top/dist/programs" 2>/dev/null
}

# Sets `program` to one that was built from the sources as they are, and `origin` to what it is. It notes what it found in the user's cache, and takes that from
# the note if no file has changed since.
find_program() {
    note=
    case ${XDG_CACHE_HOME-} in
    /*) note=$XDG_CACHE_HOME/tepchoum$top/program ;;
    *) [ -z "${HOME-}" ] || note=$HOME/.cache/tepchoum$top/program ;;
    esac
    noted_program && return
    listing=
    if [ -n "$note" ] && mkdir -p "${note%/*}" 2>/dev/null && [ -w "${note%/*}" ]; then
        listing=$(list_files)
    fi
    sources=$("$top/tools/digest" farm) || return 1
    program=$top/dist/farm
    if line=$(dist_line) && [ "$(echo "$line" | cut -d ' ' -f 3)" = "$sources" ]; then
        if [ "$(sha256sum <"$program" | cut -d ' ' -f 1)" = "$(echo "$line" | cut -d ' ' -f 2)" ]; then
            origin="dist/farm, sha256 $(echo "$line" | cut -d ' ' -f 2)"
            note_program
            return 0
        fi
        echo "farm: dist/farm is not the file that dist/programs describes, and is not used" >&2
        listing=
    fi
    program=$top/crates/farm/out/farm
    origin="crates/farm/out/farm, built here"
    [ -x "$program" ] && [ -r "$program.sources" ] && [ "$sources" = "$(cat "$program.sources")" ] || return 1
    note_program
}

# Prints a line of each file that find_program reads, in the order of the folders: name, size, times of the last write and the last change in nanoseconds, number on
# the disk, rights. Words are further conditions of `find`.
list_files() {
    (
        cd -- "$top" && find -H crates.txt HANDLES tools/digest tools/programs.sh dist crates/farm/out/farm crates/farm/out/farm.sources crates \
            -name out -prune -o -type f \( -name '*.rt' -o -name '*.antt' -o ! -path 'crates/*' -o -path 'crates/farm/out/*' \) "$@" -printf '%p %s %T@ %C@ %i %m\n'
    ) 2>/dev/null
}

# Whether `program` and `origin` could be taken from the note. It has them, the machine, and the files.
noted_program() {
    { read -r found && read -r origin; } 2>/dev/null <"$note" || return 1
    [ "$found" = dist/farm ] || [ "$found" = crates/farm/out/farm ] || return 1
    { printf '%s\n%s\n' "$found" "$origin" && uname -s -m && list_files; } | cmp -s - "$note" 2>/dev/null || return 1
    program=$top/$found
}

# Writes the note, if `listing` has the files. It writes none if a file changed in the last two seconds: a further change within one tick of the disk's clock
# would not show.
note_program() {
    case $listing in
    "crates.txt "*) [ -z "$(list_files \( -newermt '2 seconds ago' -o -newerct '2 seconds ago' \))" ] || return 0 ;;
    *) return 0 ;;
    esac
    {
        printf '%s\n%s\n%s\n%s\n' "${program#"$top/"}" "$origin" "$(uname -s -m)" "$listing" >"$note.$$" && mv -f "$note.$$" "$note" || rm -f "$note.$$"
    } 2>/dev/null
    return 0
}

need_kit() {
    command -v rt >/dev/null 2>&1 && return
    if [ "$(uname -s) $(uname -m)" != "Linux x86_64" ]; then
        echo "farm: the program of dist/ is for x86-64 Linux, and this is $(uname -s) $(uname -m); to build another takes the Rattle kit's command rt" >&2
    else
        echo "farm: $1, and the Rattle kit's command rt is not on the PATH" >&2
    fi
    exit 1
}

# As find_program, after proving and building it if that is owed; or ends.
have_program() {
    find_program && return
    need_kit "no program was built from the sources as they are"
    if ! mkdir -p "${program%/*}" 2>/dev/null || [ ! -w "${program%/*}" ]; then
        echo "farm: no program was built from the sources as they are, and ${program%/*} cannot be written" >&2
        exit 1
    fi
    echo "farm: no program was built from the sources as they are: proving and building it, some 25 minutes on four processors (./farm try runs it unproved in one)" >&2
    "$top/tools/build" >&2 || {
        echo "farm: the program could not be proved and built" >&2
        exit 1
    }
}
