# How `prove` is run, for ./farm and for what tools/install installs: by the program, which ends with its best on a signal, or by a script that keeps what others
# can check, with the program's own proof or one of an installed solver; how much memory it may take; and whether words ask for help. `program` is the path of farm.

# Whether the words ask for help.
asks_for_help() {
    case ${1-} in
    help | --help | -h) return ;;
    esac
    for word in "$@"; do
        case $word in
        --help | -h) return ;;
        esac
    done
    return 1
}

# Whether the words of `prove` are for the script over an installed solver.
asks_for_solver() {
    for word in "$@"; do
        case $word in
        --solver | --solver=*) return ;;
        esac
    done
    return 1
}

# Whether the words of `prove` ask that what others can check is kept.
asks_to_keep() {
    for word in "$@"; do
        case $word in
        --keep | --keep=*) return ;;
        esac
    done
    return 1
}

# Whether a word is `-` or names an input that need not end, as a file or a schedule: the standard input, a pipe, a terminal. A signal ends that read. So it is
# where the words themselves have the program end with its input.
reads_input() {
    for word in "$@"; do
        word=${word#--from=}
        case $word in
        - | --until-input-ends | /dev/stdin | /dev/fd/* | /proc/*/fd/*) return ;;
        esac
        [ ! -p "$word" ] && [ ! -c "$word" ] || return 0
    done
    return 1
}

# Prints the number behind a label, in the first line of a file that begins with it; of a file of one number, with no label, that number.
number_in() {
    [ -r "$1" ] || return
    while read -r one two _; do
        if [ -z "$2" ]; then
            two=$one
        elif [ "$one" != "$2" ]; then
            continue
        fi
        case $two in
        "" | *[!0-9]*) ;;
        *) echo "$two" ;;
        esac
        return
    done <"$1"
}

# Lowers `free` to a number, if it is one.
at_most() {
    case $1 in
    "" | *[!0-9]*) return ;;
    esac
    [ -n "$free" ] && [ "$free" -le "$1" ] || free=$1
}

# Lowers `free` to what a control group leaves, given its folder and the names of its limit, its usage and what can be taken back of that.
at_most_of_group() {
    limit=$(number_in "$1/$2" "")
    [ -n "$limit" ] || return
    usage=$(number_in "$1/$3" "")
    spare=$(number_in "$1/memory.stat" "$4")
    left=$((limit - ${usage:-0} + ${spare:-0}))
    [ "$left" -ge 0 ] || left=0
    at_most "$((left / 1024))"
}

# Sets `memory` to the option of half of the megabytes that are free to this process, at least 16: by MemAvailable, by its control groups and those above them, and
# by `ulimit -v`. It is empty if the words limit memory, or if nothing is known.
choose_memory() {
    memory= free=
    for word in "$@"; do
        case $word in
        --memory | --memory=*) return ;;
        esac
    done
    at_most "$(number_in /proc/meminfo MemAvailable:)"
    at_most "$(ulimit -v)"
    [ -r /proc/self/cgroup ] && while IFS=: read -r _ kinds path; do
        case ,$kinds, in
        ,,) set -- /sys/fs/cgroup memory.max memory.current inactive_file ;;
        *,memory,*) set -- /sys/fs/cgroup/memory memory.limit_in_bytes memory.usage_in_bytes total_inactive_file ;;
        *) continue ;;
        esac
        while :; do
            at_most_of_group "$1$path" "$2" "$3" "$4"
            [ -n "$path" ] || break
            path=${path%/*}
        done
    done </proc/self/cgroup
    [ -n "$free" ] || return
    half=$((free * 1024 / 2000000))
    [ "$half" -ge 16 ] || half=16
    [ "$half" -le 100000000 ] || half=100000000
    memory=--memory=$half
}

# Sets FARM_MEMORY to the kilobytes that are free to this process, if faults are explained: `serve` warns if its journal may take more.
export_free_memory() {
    [ "${FARM_EXPLAIN-}" = 1 ] || return
    choose_memory
    [ -z "$free" ] || export FARM_MEMORY="${FARM_MEMORY-$free}"
}

# Waits until a process ends, whatever signals come. Sets `status`.
wait_for() {
    while :; do
        wait "$1"
        status=$?
        kill -0 "$1" 2>/dev/null || break
    done
    [ "$status" -gt 128 ] || return 0
    # (of a signal that came as the process ended; the process's own status is still to be had, unless that was it)
    wait "$1" 2>/dev/null
    set -- "$?"
    [ "$1" = 127 ] || status=$1
}

# Makes a folder for temporary files, and prints its path. Fails if none can be had.
make_room() {
    mktemp -d 2>/dev/null || TMPDIR=/tmp mktemp -d 2>/dev/null || TMPDIR=/var/tmp mktemp -d 2>/dev/null
}

# Runs `prove` until it ends, with a pipe as its standard input that ends on Ctrl-C, SIGTERM and SIGHUP: then it prints the best that it has. The pipe ends
# with this shell too. Sets `status`, and `stopped` if such a signal came. Without a folder for the pipe it is run as it is, in place of this shell.
run_stoppable() {
    stopped=
    trap 'stopped=yes; exec 9>&-' INT TERM HUP
    folder=$(make_room) && mkfifo "$folder/stop" && exec 9<>"$folder/stop" 8<"$folder/stop" || exec "$program" "$@"
    rm -r "$folder"
    shift
    (
        trap '' INT TERM HUP
        exec "$program" prove --until-input-ends "$@" <&8 8<&- 9>&-
    ) &
    child=$!
    [ -z "$stopped" ] || exec 9>&-
    wait_for "$child"
}

# As run_stoppable, and ends with the program's status.
launch() {
    run_stoppable "$@"
    exit "$status"
}
