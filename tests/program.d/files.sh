# Files, and command lines. A part of tests/program, which has what is used here.

# Texts that the table `files` names.
sed 's/^   1        1          2           2   3$/   1        1          2           2\n   3/; s/$/\r/' "$long" >"$work/crlf"
printf '\032more' >>"$work/crlf"
{
    sed '1s/.*/jobs (incl. supersource\/sink ): 203/; s/^3 2 1 4$/3 1 1 4/; 9q' "$work/short"
    for j in $(seq 5 203); do echo "$j 1 0"; done
    sed -n 10,11p "$work/short"
    for j in $(seq 203); do echo "$j 1 0 0 0"; done
    sed -n 17,19p "$work/short"
} >"$work/jobs203"
long_file="the file has more than 1048576 bytes"

"$farm" >"$work/out" 2>"$work/err" <"$long"
status=$?
says "no words" 0 "$first" ""
"$farm" check - >"$work/out" 2>"$work/err" <"$long"
status=$?
says "a check of standard input" 0 "$first" ""
cp "$long" "$work/a b.mm"
"$farm" check "$work/a b.mm" >"$work/out" 2>"$work/err" </dev/null
status=$?
says "a file with a blank in its name" 0 "$first" ""
yes | "$farm" check - >"$work/out" 2>"$work/err"
status=$?
says "a text without an end" 1 "" "farm: no file TooLong
farm: why: $long_file"
# A file that cannot be read is told on one line, and why on a second one.
missing="farm: cannot read $work/none
farm: why: there is no such file"
unlisted="farm: cannot read $work
farm: why: it is a folder"
"$farm" check "$work/none" >"$work/out" 2>"$work/err" </dev/null
status=$?
says "a missing file" 1 "" "$missing"
"$farm" check "$work" >"$work/out" 2>"$work/err" </dev/null
status=$?
says "a folder" 1 "" "$unlisted"
"$farm" check "$long/none" >"$work/out" 2>"$work/err" </dev/null
status=$?
says "a file below a file" 1 "" "farm: cannot read $long/none
farm: why: a part of its path is no folder"
name=$(printf '%0300d' 0)
"$farm" check "$work/$name" >"$work/out" 2>"$work/err" </dev/null
status=$?
says "a name that is too long" 1 "" "farm: cannot read $work/$name
farm: why: its name is too long"
ln -s loop "$work/loop"
"$farm" check "$work/loop" >"$work/out" 2>"$work/err" </dev/null
status=$?
says "a link to itself" 1 "" "farm: cannot read $work/loop
farm: why: its links lead in a circle"
cp "$long" "$work/locked"
chmod 0 "$work/locked"
if [ "$(id -u)" != 0 ]; then
    "$farm" check "$work/locked" >"$work/out" 2>"$work/err" </dev/null
    status=$?
    says "a file that may not be read" 1 "" "farm: cannot read $work/locked
farm: why: permission is denied"
fi

# silent NAME ERR WORDS..: without the variable, or with another value of it, only this stands on standard error
silent() {
    name=$1 wanted=$2
    shift 2
    for value in 0 11 yes ""; do
        FARM_EXPLAIN=$value "$program" "$@" >"$work/out" 2>"$work/err" </dev/null
        status=$?
        says "$name, FARM_EXPLAIN='$value'" 1 "" "$wanted"
    done
    env -u FARM_EXPLAIN "$program" "$@" >"$work/out" 2>"$work/err" </dev/null
    status=$?
    says "$name, without FARM_EXPLAIN" 1 "" "$wanted"
}
"$program" check "$(printf '\377')" >"$work/out" 2>"$work/err" </dev/null
status=$?
says "a word that is not UTF-8" 2 "" "farm: cannot read the command line"
silent "a missing file" "farm: cannot read $work/none" check "$work/none"
silent "a folder to solve" "farm: cannot read $work" solve "$work"
silent "a missing schedule" "farm: cannot read $work/none" verify "$long" "$work/none"
silent "a missing configuration" "farm: cannot read $work/none" replay --config "$work/none" "$top/examples/first.script"
echo '{"tenants": []}' >"$work/empty.json"
silent "a configuration without tenants" "farm: config Tenants" replay --config "$work/empty.json" "$top/examples/first.script"
silent "a service without tenants" "farm: config Tenants" serve --config "$work/empty.json" --port 0 --sessions 1
if [ -c /dev/full ]; then
    "$farm" check "$long" >/dev/full 2>"$work/err" </dev/null
    status=$?
    : >"$work/out"
    says "a full standard output" 1 "" ""
fi

"$farm" verify - - >"$work/out" 2>"$work/err" <"$long"
status=$?
says "one input for a file and a schedule" 2 "" "farm: FILE and SCHEDULE cannot both be standard input"
"$farm" draw - - >"$work/out" 2>"$work/err" <"$long"
status=$?
says "one input for a file and a schedule that is drawn" 2 "" "farm: FILE and SCHEDULE cannot both be standard input"

for word in --version -V; do
    "$farm" "$word" >"$work/out" 2>"$work/err" </dev/null
    status=$?
    # ./farm adds which program runs, and in a checkout its commit.
    sed -i '/^commit [0-9a-f]*$/d; /^program dist\/farm, sha256 [0-9a-f]*$/d' "$work/out"
    logic=$({ rt version 2>/dev/null || cat "$work/out"; } | sed -n 's/.*\(logic [0-9a-f]*\).*/\1/p')
    says "the version by $word" 0 "farm 0.2.0 ($logic)" ""
done
