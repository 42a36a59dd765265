# Scripts and configurations. A part of tests/program, which has what is used here.

# prints NAME STATUS OUT ERR: what the last run printed is, byte for byte, what these two files hold, and its status
prints() {
    if [ "$status" = "$2" ] && cmp -s "$3" "$work/out" && cmp -s "$4" "$work/err"; then
        passed=$((passed + 1))
    else
        failed=$((failed + 1))
        echo "program: $1: status $status, and not $2, or other texts:"
        diff "$3" "$work/out" | head -n 20
        diff "$4" "$work/err" | head -n 20
    fi
}

# plays FOLDER: of the folder's config.json and script, as files and on standard input. stderr and status stand there where they
# are not empty and not 0
plays() {
    wanted=0
    errors=/dev/null
    [ -f "$1/status" ] && wanted=$(cat "$1/status")
    [ -f "$1/stderr" ] && errors=$1/stderr
    "$program" replay --config "$1/config.json" "$1/script" >"$work/out" 2>"$work/err" </dev/null
    status=$?
    prints "the script ${1##*/}" "$wanted" "$1/stdout" "$errors"
    "$program" replay --config "$1/config.json" - <"$1/script" >"$work/out" 2>"$work/err"
    status=$?
    prints "the script ${1##*/}, on standard input" "$wanted" "$1/stdout" "$errors"
}
scripts=$top/tests/scripts
for folder in "$scripts"/*/; do
    plays "${folder%/}"
done

# The requests of two tenants in each of the 924 orders that keep those of each in theirs: each tenant is told the same as alone.
for tenant in tree_to_its_end another_tenant; do
    awk -v file="$work/$tenant" '/^(@|turn|take|give)/ { n++ } { print > (file n) }' "$scripts/$tenant/script"
done
cat "$scripts/tree_to_its_end/stdout" "$scripts/another_tenant/stdout" >"$work/alone"
orders=0
bits=0
while [ "$bits" -lt 4096 ]; do
    order=
    own=0
    other=0
    for place in 0 1 2 3 4 5 6 7 8 9 10 11; do
        if [ $((bits >> place & 1)) = 1 ]; then
            own=$((own + 1))
            order="$order $work/tree_to_its_end$own"
        else
            other=$((other + 1))
            order="$order $work/another_tenant$other"
        fi
    done
    bits=$((bits + 1))
    [ "$own" = 6 ] || continue
    cat $order | "$program" replay --config "$scripts/another_tenant/config.json" - >"$work/all" 2>"$work/err"
    status=$?
    LC_ALL=C sort -s -k 1,1 "$work/all" >"$work/out"
    prints "the orders of two tenants,$order" 0 "$work/alone" /dev/null
    orders=$((orders + 1))
done
echo "$orders" >"$work/out"
: >"$work/err"
status=0
says "how many orders two tenants have" 0 924 ""

two='{"tenants":[{"name":"a","quanta":100,"jobs":2,"entries":100},{"name":"b","quanta":10,"jobs":2,"entries":100}]}'
echo "$two" >"$work/config"
ledger="@a ledger granted 100 free 100 held 0 spent 0"
ledger_of_b="@b ledger granted 10 free 10 held 0 spent 0"

# replays NAME STATUS OUT ERR WORDS..: of the script in $work/script and the configuration in $work/config, as files and on
# standard input. The line and the column of a text that is no JSON text are told as L and C, and tenants whose entries do not last are
# told by scripts alone
replays() {
    name=$1
    wanted=$2
    text=$3
    fault=$4
    shift 4
    "$program" replay "$@" --config "$work/config" "$work/script" >"$work/out" 2>"$work/err" </dev/null
    status=$?
    sed -i 's/^farm: why: line [0-9]* column [0-9]*: /farm: why: line L column C: /; /^farm: tenant .* entries do not last /d' "$work/err"
    says "$name" "$wanted" "$text" "$fault"
    set -- "$name" "$wanted" "$text" "$fault" "$@"
    shift 4
    "$program" replay "$@" --config "$work/config" - <"$work/script" >"$work/out" 2>"$work/err"
    status=$?
    sed -i 's/^farm: why: line [0-9]* column [0-9]*: /farm: why: line L column C: /; /^farm: tenant .* entries do not last /d' "$work/err"
    set -- "$name" "$wanted" "$text" "$fault"
    says "$1, on standard input" "$2" "$3" "$4"
}

# padded LENGTH TEXT END: a line of the text and blanks, so many bytes before its end, and a request of b
padded() { printf "%-$1s$3@b ledger\n" "$2"; }
{
    padded 4096 "@a ledger" "\n"
    padded 4096 "@a ledger" "\r\n"
    padded 4097 "@a ledger" "\n"
    padded 4097 "@a ledger" "\r\n"
    padded 4096 "@a ledger" "\r\r\n"
    padded 9000 "" "\r\n"
    padded 9000 "" "x\n"
} >"$work/script"
replays "lines of the greatest length and above" 0 "$ledger
$ledger_of_b
$ledger
$ledger_of_b
@? no line
$ledger_of_b
@? no line
$ledger_of_b
@? no line
$ledger_of_b
$ledger_of_b
@? no line
$ledger_of_b" ""
{
    echo "@a submit tree 6 2"
    padded 4096 "" "\nx\n"
    echo "@a submit tree 6 2"
    padded 4097 "" "\nx\n"
    echo "@a submit tree 6 256"
    head -c 1048576 /dev/zero | tr '\0' '*' | fold -w 4096
    printf '\n@b ledger\n'
} >"$work/script"
replays "texts of long lines, and a long text" 0 "@a no file Header
$ledger_of_b
@a no line
$ledger_of_b
@a no file TooLong
$ledger_of_b" ""
{
    head -c 4097 /dev/zero | tr '\0' x
    echo
    echo "@a ledger"
} >"$work/script"
replays "a word that is too long" 0 "@? no line
$ledger" ""

# pipes NAME STATUS OUT ERR COMMAND..: of what the command prints, as a script on standard input
pipes() {
    name=$1
    wanted=$2
    out=$3
    err=$4
    shift 4
    "$@" | "$program" replay --config "$work/config" - >"$work/out" 2>"$work/err"
    status=$?
    says "$name" "$wanted" "$out" "$err"
}
# fills COUNT BYTE TEXT: a byte so many times, and then the text
fills() { head -c "$1" /dev/zero | tr '\0' "$2" && printf "$3"; }
pipes "the greatest request" 0 "$ledger" "" fills 99999990 '\n' "@a ledger\n"
pipes "a request that is too long" 1 "" "farm: replay Read" fills 99999991 '\n' "@a ledger\n"
pipes "the greatest last line" 0 "$ledger" "" fills 99999991 '\n' "@a ledger"
pipes "a last line that is too long" 1 "" "farm: replay Read" fills 99999992 '\n' "@a ledger"
pipes "a submit that is too long" 1 "" "farm: replay Read" fills 99999980 '\n' "@a submit tree 6 1\nx\n"
pipes "too many blanks" 1 "" "farm: replay Read" fills 100000001 ' ' ""
pipes "line feeds for ever" 1 "" "farm: replay Read" yes ""

# 1,000,000 requests, of which the journal has room for 100, and one more than these.
yes "@a ledger" | head -n 1000000 >"$work/script"
{
    yes "$ledger" | head -n 100
    yes "@a no room" | head -n 999900
} >"$work/lines"
"$program" replay --config "$work/config" "$work/script" >"$work/out" 2>"$work/err" </dev/null
status=$?
prints "the most requests" 0 "$work/lines" /dev/null
yes x | head -n 1000001 >"$work/script"
yes "@? no syntax" | head -n 1000000 >"$work/lines"
echo "farm: replay Requests" >"$work/fault"
"$program" replay --config "$work/config" "$work/script" >"$work/out" 2>"$work/err" </dev/null
status=$?
prints "too many requests" 1 "$work/lines" "$work/fault"

# What is noted of a script: the first refused request under --strict, and a count of lines that takes requests for text.
printf '\n@a ledger\n\n@a fund 1 3\nturn b 1 1\n' >"$work/script"
replays "refused requests" 0 "$ledger
@a no unknown
@b no turn" ""
replays "refused requests of a strict replay" 1 "$ledger
@a no unknown
@b no turn" "farm: refused at line 4" --strict
printf '@a ledger\n' >"$work/script"
replays "a strict replay without a refused request" 0 "$ledger" "" --strict
printf '@a submit tree 6 3\nx\ny\n@a ledger\n@b ledger\n@b submit tree 6 2\nx\n@b ledger\n' >"$work/script"
doubt="the text of this submit ends with a line that begins with '@'; is its count of lines right?"
replays "a count of lines that takes a request" 0 "@a no file Header
$ledger_of_b
@b no file Header" "farm: line 1: $doubt"
replays "a strict replay of such a count" 1 "@a no file Header
$ledger_of_b
@b no file Header" "farm: refused at line 1
farm: line 1: $doubt" --strict

rm "$work/script"
"$farm" replay --config "$work/config" "$work/script" >"$work/out" 2>"$work/err" </dev/null
status=$?
says "a missing script" 1 "" "farm: cannot read $work/script
farm: why: there is no such file"
"$farm" replay --config "$work/none" "$work/script" >"$work/out" 2>"$work/err" </dev/null
status=$?
says "a missing configuration" 1 "" "$missing"
echo "@a ledger" >"$work/script"

# asks NAME WORDS..: a command line that asks for the replay of that script, in the folder of the files
asks() {
    name=$1
    shift
    (cd "$work" && "$farm" "$@" >"$work/out" 2>"$work/err" <"$work/script")
    status=$?
    says "$name" 0 "$ledger" ""
}
cp "$work/config" "$work/-"
asks "a configuration and a script" replay --config config script
asks "a script and a configuration" replay script --config config
asks "a configuration and standard input" replay --config config -
asks "a configuration behind a sign" replay --config=config script
asks "a configuration in a file -" replay --config - script

# configs NAME FAULT: of the configuration in $work/config, which has that fault, or none
configs() {
    if [ -n "$2" ]; then
        why=$(python3 "$top/tests/plain_farm.py" --fault "$work/config")
        case $why in
        "farm: config $2"?"farm: why: "*) ;;
        *) why="farm: config $2, and not $why" ;;
        esac
        replays "$1" 1 "" "$why"
    else
        replays "$1" 0 "" ""
    fi
    wanted=$(python3 "$top/tests/plain_farm.py" --means "$work/config" 2>&1)
    for file in "$work/config" -; do
        FARM_EXPLAIN=0 "$farm" config "$file" >"$work/line" 2>&1 <"$work/config"
        status=$?
        is_fault=0
        [ -n "$2" ] && is_fault=1
        cp "$work/line" "$work/out"
        : >"$work/err"
        says "what it means: $1" "$is_fault" "$wanted" ""
    done
}
# explains WHY: the second line of `config` on the configuration in $work/config
explains() {
    FARM_EXPLAIN=1 "$farm" config "$work/config" 2>"$work/err" >"$work/line" </dev/null
    status=$?
    : >"$work/out"
    says "config: $1" 0 "" "$1"
}
printf '{"tenants":[{"name":"a","quanta":1,"jobs":1,"entries":1}],"wokers":2}' >"$work/config"
explains "farm: why: wokers is not read; workers is near"
printf '{"tenants":[{"name":"a","quanta":1,"jobs":1,"entries":1},{"name":"b","quanta":1,"jobs":1,"entries":1,"puse":"p"}]}' >"$work/config"
explains "farm: why: tenants[1].puse is not read; purse is near"
printf '{"tenants":[{"name":"a","quanta":1,"jobs":1,"entries":1}],"about":{}}' >"$work/config"
explains "farm: why: about is not read"
printf '{"tenants":[{"name":"a","quanta":1,"jobs":1,"entries":1}]}' >"$work/config"
explains ""
: >"$work/script"
while IFS='	' read -r text fault; do
    printf '%s\n' "$text" >"$work/config"
    configs "the configuration $text" "$fault"
done <"$top/tests/configurations"
: >"$work/config"
configs "an empty configuration" Json
# (second lines that were worked by hand)
tells() {
    "$program" replay --config "$work/config" "$work/script" >"$work/out" 2>"$work/err" </dev/null
    status=$?
    says "the place of a fault: $2" 1 "" "farm: config $1
farm: why: $2"
}
printf '{"tenants":\n[,' >"$work/config"
tells Json "line 2 column 2: this is no JSON text"
printf '{"tenants":[{"name":"a","quanta":1,"jobs":1,"entries":1},{"name":"b","quanta":1,"entries":1}]}' >"$work/config"
tells Shape "tenants[1].jobs: a natural number below 2^64 is wanted, in digits alone"
printf '{"tenants":[{"name":"a","quanta":1,"jobs":1,"entries":1},{"name":"B","quanta":1,"jobs":1,"entries":1}]}' >"$work/config"
tells "Name(1)" "tenants[1].name: 1 to 32 of a-z, 0-9, _ and - are allowed, a letter first, and no name twice"
printf '{"tenants":[{"name":"a","quanta":1,"jobs":1,"entries":1}],"slice":0}' >"$work/config"
tells "Range(slice)" "slice: 1 to 1000000 are allowed"
# (each limit as it is told)
while read -r fault place said; do
    IFS= read -r config
    printf '%s' "$config" >"$work/config"
    tells "$fault" "$place $said"
done <<'END'
Tenants tenants: 1 to 64 are allowed
{"tenants":[]}
Range(quanta) tenants[0].quanta: 0 to 1000000000000 are allowed
{"tenants":[{"name":"a","quanta":1000000000001,"jobs":1,"entries":1}]}
Range(jobs) tenants[0].jobs: 1 to 1000 are allowed
{"tenants":[{"name":"a","quanta":1,"jobs":1001,"entries":1}]}
Range(entries) tenants[0].entries: 1 to 1000000 are allowed
{"tenants":[{"name":"a","quanta":1,"jobs":1,"entries":1000001}]}
Range(workers) workers: 1 to 16 are allowed
{"tenants":[{"name":"a","quanta":1,"jobs":1,"entries":1}],"workers":17}
Range(slice) slice: 1 to 1000000 are allowed
{"tenants":[{"name":"a","quanta":1,"jobs":1,"entries":1}],"slice":1000001}
Range(purse) tenants[0].purse: 0 to 1000000000000 quanta are allowed for its tenants together
{"tenants":[{"name":"a","quanta":1000000000000,"jobs":1,"entries":1,"purse":"p"},{"name":"b","quanta":1,"jobs":1,"entries":1,"purse":"p"}]}
Name(0) tenants[0].purse: 1 to 32 of a-z, 0-9, _ and - are allowed, a letter first
{"tenants":[{"name":"a","quanta":1,"jobs":1,"entries":1,"purse":"P"}]}
END
: >"$work/config"
printf '{"tenants":["\377"]}' >"$work/config"
configs "a configuration that is not UTF-8" Json
# crowd COUNT JOBS MORE: a configuration of so many tenants, named t0, t1 and so on
crowd() {
    printf '{"tenants":[{"name":"t0","quanta":1,"jobs":%s,"entries":2%s}' "$2" "${3-}"
    for index in $(seq $(($1 - 1))); do
        printf ',{"name":"t%s","quanta":1,"jobs":%s,"entries":2%s}' "$index" "$2" "${3-}"
    done
    printf ']}'
}
crowd 65 0 >"$work/config"
configs "65 tenants" Tenants
crowd 64 1 >"$work/config"
printf '@t63 ledger\n@t64 ledger\n' >"$work/script"
replays "64 tenants" 0 "@t63 ledger granted 1 free 1 held 0 spent 0
@t64 no tenant" ""
# The last of 64 tenants submits a job with 64 quanta, and the first one a job with one; then each asks for its ledger.
{
    for tenant in "t63 submit tree 64" "t0 submit tree 1"; do
        echo "@$tenant $(($(wc -l <"$top/examples/j10_1.mm")))"
        cat "$top/examples/j10_1.mm"
    done
    for index in $(seq 0 63); do
        echo "@t$index ledger"
    done
} >"$work/script"
# ledgers FIRST LAST TEXT: the ledgers of so many tenants
ledgers() {
    for index in $(seq "$1" "$2"); do
        echo "@t$index ledger $3"
    done
}
replays "64 tenants in 64 purses" 0 "@t63 no short 1
@t0 job 1
$(ledgers 0 0 "granted 1 free 0 held 1 spent 0")
$(ledgers 1 63 "granted 1 free 1 held 0 spent 0")" ""
crowd 64 1 ',"purse":"p"' >"$work/config"
replays "64 tenants in one purse" 0 "@t63 job 1
@t0 no short 0
$(ledgers 0 63 "granted 64 free 0 held 64 spent 0")" ""
echo "@a ledger" >"$work/script"
fills $((1048576 - ${#two})) ' ' "$two" >"$work/config"
replays "the longest configuration" 0 "$ledger" ""
fills $((1048577 - ${#two})) ' ' "$two" >"$work/config"
replays "a configuration too long" 1 "" "farm: cannot read $work/config
farm: why: it has more than 1048576 bytes"
"$farm" config "$work/config" >"$work/out" 2>"$work/err" </dev/null
status=$?
says "what a configuration too long means" 1 "" "farm: config TooLong"
if [ -c /dev/full ]; then
    echo "$two" >"$work/config"
    "$farm" replay --config "$work/config" "$work/script" >/dev/full 2>"$work/err" </dev/null
    status=$?
    : >"$work/out"
    says "a full standard output of a replay" 1 "" "farm: replay Write"
fi
"$farm" replay --config "$top/examples/farm.json" "$top/examples/first.script" >"$work/out" 2>"$work/err" </dev/null
status=$?
sed -n '6p' "$work/out" >"$work/line"
mv "$work/line" "$work/out"
says "the example of ten activities and two more" 0 "@planning job 1 makespan 17 optimal 1:1:0 2:1:0 3:1:0 4:1:0 5:1:6 6:1:7 7:1:10 8:1:10 9:1:14 10:1:15 11:2:14 12:1:17" ""
