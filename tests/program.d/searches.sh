# Searches, and what the commands list. A part of tests/program, which has what is used here.

# solves NAME STATUS OUT ERR WORDS: a search by these words
solves() {
    name=$1
    wanted=$2
    text=$3
    fault=$4
    shift 4
    "$farm" solve "$@" >"$work/out" 2>"$work/err" </dev/null
    status=$?
    says "solve: $name" "$wanted" "$text" "$fault"
}
"$farm" solve --search improve:1 --nodes 100000 "$top/examples/j30_1.mm" >"$work/lines" 2>"$work/err" </dev/null
status=$?
sed 's/ 1:.*//' "$work/lines" | tail -n 1 >"$work/out"
says "a schedule as short as the longest chain" 0 "makespan 26 optimal" ""
# Progress of a search of more than a second, on a terminal by itself, and elsewhere by an option.
timeout 5 "$farm" solve --search improve:1 --nodes 1000000000 "$top/examples/j30_2.mm" >"$work/out" 2>"$work/lines" </dev/null
sed 's/[0-9][0-9]*/N/g' "$work/lines" | head -n 1 >"$work/err"
status=0
says "progress by itself" 0 "" "nodes N N % seconds N rate N best N chain N"
FARM_EXPLAIN=0 timeout 4 "$farm" solve --progress --search improve:1 --nodes 1000000000 "$top/examples/j30_2.mm" >"$work/out" 2>"$work/lines" </dev/null
sed 's/[0-9][0-9]*/N/g' "$work/lines" | head -n 1 >"$work/err"
status=0
says "progress by its option" 0 "" "nodes N rate N best N"
timeout 4 "$farm" solve --quiet --search improve:1 --nodes 1000000000 "$top/examples/j30_2.mm" >"$work/out" 2>"$work/err" </dev/null
status=0
says "no progress of a quiet search" 0 "" ""
# From here on without second lines.
FARM_EXPLAIN=0
# Each kind of search, after so many nodes, as the independent program tells it.
while read -r kind file nodes; do
    python3 "$top/tests/plain_searches.py" "$kind" "$top/examples/$file" "$nodes" | tail -n 1 >"$work/line"
    wanted=$(awk '{ places = ""; for (i = 3; i <= NF - 2; i++) places = places " " $i
        print "nodes " $1 " best " $2 " " $NF; print "makespan " $2 " " $NF places }' "$work/line")
    solves "$kind of $file by $nodes nodes" 0 "$wanted" "" --search "$kind" --nodes "$nodes" "$top/examples/$file"
    "$farm" solve --search "$kind" --nodes "$nodes" "$top/examples/$file" 2>&1 </dev/null | "$farm" verify "$top/examples/$file" - >"$work/out" 2>"$work/err"
    status=$?
    case $(awk '{ print $2 }' "$work/line") in
    none) says "verify: what $kind of $file found by $nodes nodes" 1 "" "farm: no schedule Words" ;;
    *) says "verify: what $kind of $file found by $nodes nodes" 0 "feasible makespan $(awk '{ print $2 }' "$work/line")" "" ;;
    esac
done <<'TABLE'
tree first.mm 3
tree first.mm 4
tree first.mm 8
tree first.mm 9
tree first.mm 10
tree j10_1.mm 500
tree j10_1.mm 28196
tree j10_1.mm 28197
tree j20_1.mm 2000
rule:lft first.mm 3
rule:lft j20_1.mm 100
rule:mts j20_1.mm 22
rule:mts j10_1.mm 100
rule:spt j30_1.mm 31
rule:spt j30_1.mm 32
rule:lft j30_1.mm 1000
sample:7 j10_1.mm 1200
sample:0 j20_1.mm 1
sample:999999999999999999 j20_1.mm 2222
TABLE
# Local search: its schedule is feasible and has the makespan that is told, and the same seed finds it again.
while read -r file nodes makespan; do
    "$farm" solve --search improve:3 --nodes "$nodes" "$top/examples/$file" >"$work/found" 2>/dev/null </dev/null
    "$farm" verify "$top/examples/$file" "$work/found" >"$work/out" 2>"$work/err"
    status=$?
    says "solve: what local search finds in $file" 0 "feasible makespan $makespan" ""
    solves "local search of $file, again" 0 "$(cat "$work/found")" "" --search improve:3 --nodes "$nodes" "$top/examples/$file"
done <<'TABLE'
first.mm 1000 4
j10_1.mm 100000 17
j30_1.mm 200000 26
TABLE
# A search that proves: the makespan and the verdict are those of a closed tree, or were proved by other solvers too. Equal searches say the same.
while read -r file conflicts wanted; do
    "$farm" solve --search "prove:$conflicts" "$top/examples/$file" >"$work/found" 2>"$work/err" </dev/null
    status=$?
    sed 's/ 1:.*//' "$work/found" | tail -n 1 >"$work/out"
    says "solve: what is proved of $file" 0 "$wanted" ""
    "$farm" verify "$top/examples/$file" "$work/found" >"$work/out" 2>"$work/err"
    status=$?
    says "solve: the schedule that is proved of $file" 0 "feasible $(echo "$wanted" | cut -d ' ' -f 1,2)" ""
    solves "a proof of $file, again" 0 "$(cat "$work/found")" "" --search "prove:$conflicts" "$top/examples/$file"
done <<'TABLE'
first.mm 1000 makespan 4 optimal
j10_1.mm 1000 makespan 17 optimal
j20_1.mm 100000 makespan 29 optimal
j30_2.mm 100000 makespan 27 optimal
TABLE
for nodes in 1 7; do
    "$farm" solve --search prove:5 --nodes "$nodes" "$top/examples/j30_1.mm" 2>/dev/null </dev/null | sed -n '1s/^nodes \([0-9]*\) .*/\1/p' >"$work/line"
    [ "$(cat "$work/line")" -le "$((nodes < 5 ? nodes : 5))" ]
    status=$?
    : >"$work/out"
    : >"$work/err"
    says "solve: at most so many conflicts, $nodes" 0 "" ""
done
# Six seeds do not all find the same schedule.
found=$(for seed in 1 2 3 4 5 6; do
    "$farm" solve --search "improve:$seed" --nodes 60 "$top/examples/j30_1.mm" 2>/dev/null </dev/null
done | grep ^makespan | sort -u | wc -l)
echo "$((found > 1))" >"$work/out"
: >"$work/err"
status=0
says "solve: local searches of six seeds differ" 0 1 ""
# Several searches, one after another, as the independent program tells them.
while read -r kinds file nodes; do
    wanted=$(python3 "$top/tests/plain_solve.py" solve "$top/examples/$file" "$kinds" "$nodes")
    solves "$kinds of $file by $nodes nodes each" 0 "$wanted" "" --search "$kinds" --nodes "$nodes" "$top/examples/$file"
done <<'TABLE'
rule:lft,tree first.mm 100
rule:lft,rule:lft first.mm 100
rule:spt,rule:lft,tree j30_1.mm 100
rule:lft,rule:mts,rule:spt j20_1.mm 100
rule:lft,rule:mts j10_1.mm 24
tree,rule:lft j10_1.mm 10
rule:lft,sample:7,tree j10_1.mm 500
rule:mts,rule:lft j30_2.mm 5
tree,sample:1 first.mm 9
TABLE
for kinds in rule:lft,rule:mts,rule:spt,tree,improve:1,prove:100000 ; do
    "$farm" solve --search "$kinds" --nodes 20000 "$top/examples/j30_2.mm" >"$work/found" 2>/dev/null </dev/null
    solves "all searches of a larger one" 0 "$(cat "$work/found")" "" --search all --nodes 20000 "$top/examples/j30_2.mm"
done
thousand=$(printf 'rule:lft,%.0s' $(seq 999))rule:lft
solves "a thousand searches" 0 "nodes 4000 best 5 ended
makespan 5 ended 1:1:0 2:1:0 3:1:3 4:1:5" "" --search "$thousand" "$long"
solves "a thousand and one searches" 2 "" "farm: more than 1000 searches" --search "$thousand,rule:lft" "$long"
# Each line of a longer search is of a feasible schedule, shorter than those before it; a search that is stopped leaves the last.
timeout 5 "$farm" solve --improvements --search tree --nodes 1000000000000 "$top/examples/j20_1.mm" >"$work/lines" 2>/dev/null </dev/null
: >"$work/out"
: >"$work/err"
status=0
last=1000000000
while read -r line; do
    echo "$line" >"$work/schedule"
    makespan=$("$farm" verify "$top/examples/j20_1.mm" "$work/schedule" 2>/dev/null </dev/null | awk '{ print $3 }')
    { [ -n "$makespan" ] && [ "$makespan" -lt "$last" ] && [ "$makespan" = "$(echo "$line" | awk '{ print $2 }')" ]; } || status=1
    last=${makespan:-0}
done <<LINES
$(grep open "$work/lines")
LINES
[ -s "$work/lines" ] || status=2
says "better and better schedules of a search that is stopped" 0 "" ""
echo "feasible makespan $last" >"$work/line"
"$farm" verify "$top/examples/j20_1.mm" "$work/lines" >"$work/out" 2>"$work/err" </dev/null
status=$?
says "verify: what a search that was stopped has printed" 0 "$(cat "$work/line")" ""
if [ -c /dev/full ]; then
    "$farm" solve "$long" >/dev/full 2>"$work/err" </dev/null
    status=$?
    : >"$work/out"
    says "solve: a full standard output" 1 "" "farm: cannot write"
fi
"$farm" --help >"$work/line" 2>&1 </dev/null
grep -o '^  [a-z]* ' "$work/line" | tr -d ' ' | tr '\n' ' ' >"$work/out"
: >"$work/err"
status=0
says "the commands that help lists" 0 "solve verify draw show compare prove certify bound infeasible clauses refute check replay serve config help bench " ""
for word in solve verify draw show compare prove certify bound infeasible clauses refute check replay serve config; do
    "$farm" help "$word" >"$work/line" 2>"$work/err" </dev/null
    "$farm" "$word" --help >"$work/out" 2>>"$work/err" </dev/null
    status=$?
    says "the help of $word" 2 "$(cat "$work/line")" ""
    grep -q "^Usage: farm $word " "$work/out"
    status=$?
    says "the usage of $word" 0 "$(cat "$work/line")" ""
done
