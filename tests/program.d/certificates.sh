# What certificates and services tell on a second line. A part of tests/program, which has what is used here.

# What the commands of certificates tell on a second line.
FARM_EXPLAIN=1
# uncertified NAME ERR WORDS..
uncertified() {
    name=$1 wanted=$2
    shift 2
    "$farm" "$@" >"$work/out" 2>"$work/err" </dev/null
    status=$?
    says "$name" 1 "" "$wanted"
    FARM_EXPLAIN=0 "$farm" "$@" >"$work/out" 2>"$work/err" </dev/null
    status=$?
    says "$name, unexplained" 1 "" "$(echo "$wanted" | head -n 1)"
}
ten=$top/examples/j10_1.mm
"$farm" solve "$ten" 2>"$work/err" </dev/null | tail -n 1 >"$work/best"
uncertified "no proof where one is needed" "farm: no proof Unfinished
farm: why: a proof to the end is needed, since the longest chain of activities takes 14 periods alone: farm prove FILE makes one" certify "$ten" "$work/best"
echo "x 1 0" >"$work/proof"
uncertified "a proof of other words" "farm: no proof Word(1)
farm: why: a step is a line of numbers that ends with 0, behind d where it deletes a clause, or is in the solver's binary form" certify "$ten" "$work/best" "$work/proof"
echo "-1 0" >"$work/proof"
uncertified "a proof that does not follow" "farm: no proof Unproved(1)
farm: why: the clause of this step does not follow from those before it: is it a proof of the clauses of this file and of one period less?" certify "$ten" "$work/best" "$work/proof"
# A service: a port that is taken, and entries that do not last.
echo "$two" >"$work/config"
python3 -c 'import socket, sys, time; s = socket.create_server(("127.0.0.1", 0)); print(s.getsockname()[1], flush=True); time.sleep(20)' >"$work/port" &
holder=$!
while ! [ -s "$work/port" ]; do sleep 0.1; done
port=$(cat "$work/port")
"$farm" serve --config "$work/config" --port "$port" --sessions 1 >"$work/out" 2>"$work/err" </dev/null
status=$?
says "a port that is taken" 1 "" "farm: serve Listen
farm: why: port $port of 127.0.0.1: another program listens at it"
silent "a port that is taken" "farm: serve Listen" serve --config "$work/config" --port "$port" --sessions 1
kill "$holder"
echo '{"tenants":[{"name":"a","quanta":3000,"jobs":2,"entries":9},{"name":"b","quanta":3000,"jobs":2,"entries":10}]}' >"$work/config"
echo "@b ledger" >"$work/script"
"$farm" replay --config "$work/config" "$work/script" >"$work/out" 2>"$work/err" </dev/null
status=$?
says "entries that do not last" 0 "@b ledger granted 3000 free 3000 held 0 spent 0" "farm: tenant a: its 9 entries do not last for its 3000 quanta: one job and its result need 10, two for each 1000 nodes, three for a submit or fund and one for any other request"
echo '{"tenants":[{"name":"a","quanta":3000,"jobs":2,"entries":15,"purse":"p"},{"name":"b","quanta":3000,"jobs":2,"entries":16,"purse":"p"}]}' >"$work/config"
"$farm" replay --config "$work/config" "$work/script" >"$work/out" 2>"$work/err" </dev/null
status=$?
says "entries that do not last for a shared purse" 0 "@b ledger granted 6000 free 6000 held 0 spent 0" "farm: tenant a: its 15 entries do not last for its purse's 6000 quanta: one job and its result need 16, two for each 1000 nodes, three for a submit or fund and one for any other request"
