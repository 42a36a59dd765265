# Schedules that are verified. A part of tests/program, which has what is used here.

# told TEXT: the schedule that is verified
told() { printf '%s' "$1" >"$work/schedule"; }
cp "$work/short" "$work/text"
told "1:1:0 2:1:0 3:2:0 4:1:3"
silent "a successor too early" "farm: breach Precedence(3, 4)" verify "$work/text" "$work/schedule"
told "1:1:0 3:2:0 4:1:4"
silent "an activity skipped" "farm: no schedule Words" verify "$work/text" "$work/schedule"
# Random schedules, against a plain count.
mkdir "$work/random"
for file in first j10_1; do
    python3 "$top/tests/plain_solve.py" scatter "$top/examples/$file.mm" 200 "$work/random" >"$work/line"
    for number in $(seq 200); do
        "$farm" verify --all "$top/examples/$file.mm" "$work/random/$number" </dev/null
        echo "status $?"
    done >"$work/out" 2>&1
    : >"$work/err"
    status=0
    says "verify --all: 200 schedules of $file" 0 "$(cat "$work/line")" ""
    "$farm" solve --search rule:lft "$top/examples/$file.mm" 2>/dev/null </dev/null | tail -n 1 >"$work/schedule"
    python3 "$top/tests/plain_solve.py" compare "$top/examples/$file.mm" "$work/schedule" "$work/random" 200 >"$work/line"
    for number in $(seq 200); do
        set -- "$work/random/$number" "$work/schedule"
        [ "$((number % 2))" = 0 ] && set -- "$2" "$1"
        FARM_EXPLAIN=0 "$farm" compare "$top/examples/$file.mm" "$@" </dev/null
        echo "status $?"
    done >"$work/out" 2>&1
    says "compare: 200 schedules of $file" 0 "$(cat "$work/line")" ""
done
# The table of a schedule, by a second program.
for file in first j10_1 j20_1 j30_1; do
    "$farm" solve --search rule:lft "$top/examples/$file.mm" >"$work/schedule" 2>"$work/err" </dev/null
    python3 "$top/tests/plain_solve.py" show "$top/examples/$file.mm" "$work/schedule" >"$work/line"
    "$farm" show "$top/examples/$file.mm" "$work/schedule" >"$work/out" 2>"$work/err" </dev/null
    status=$?
    says "show: a schedule of $file" 0 "$(cat "$work/line")" ""
done
# The heading of a picture: the longest chain has 3 periods and 14, the optima are 4 and 17, and a bound is never above them.
# heads FILE SCHEDULE HEADING [WORDS..]
heads() {
    file=$top/examples/$1.mm
    told "$2"
    wanted=$3
    shift 3
    "$farm" draw "$@" "$file" "$work/schedule" 2>"$work/err" </dev/null | "$top/tests/picture" heading 2>&1 | sed -n 2p >"$work/out"
    status=0
    says "the heading $wanted" 0 "$wanted" ""
}
heads first "1:1:0 2:1:0 3:2:0 4:1:4" "4 activities, makespan 4 (at least 3 by the longest chain)"
heads first "1:1:0 2:1:0 3:2:0 4:1:4" "4 activities, makespan 4, optimal by a proof" --prove 100
heads first "1:1:0 2:1:0 3:1:3 4:1:5" "4 activities, makespan 5 (at least 4 by a proof)" --prove 100
tenth=$("$farm" solve "$top/examples/j10_1.mm" 2>/dev/null </dev/null)
heads j10_1 "$tenth" "12 activities, makespan 17, optimal by a proof" --prove 10000
heads j10_1 "$tenth" "12 activities, makespan 17 (at least 14 by the longest chain)"
# What else a picture has: names and dates, and a thin bar for each activity of an earlier schedule.
# labels WORDS..: the lines of `tests/picture labels`
labels() {
    "$farm" draw "$@" "$long" "$work/schedule" 2>"$work/err" </dev/null | "$top/tests/picture" labels >"$work/out" 2>&1
    status=$?
}
told "1:1:0 2:1:0 3:2:0 4:1:4"
echo "1:1:0 2:1:0 3:1:3 4:1:5" >"$work/before"
printf '2,"Dig, <deep>"\n3,Pour & a name that is too long for its room\nx,nobody\n' >"$work/names"
labels --start 2026-12-30 --names "$work/names" --before "$work/before"
says "a picture with names, dates and what was before" 0 "activities 4 resources 1
4 activities, makespan 4 (at least 3 by the longest chain)
1 mode 1: 0-0, before 1:0-0
2 Dig, <deep>: 0-3, before 1:0-3
3 Pour & a name that is too long for i…: 0-4, before 1:3-5
4 mode 1: 4-4, before 1:5-5
2026-12-30 2026-12-31 2027-01-01 2027-01-02 2027-01-03 2027-01-04" ""
labels --start 2026-12-31T22:00 --unit shift --no-bound --order start
says "a picture with moments and without a bound" 0 "activities 4 resources 1
4 activities, makespan 4
1 mode 1: 0-0
2 mode 1: 0-3
3 mode 2: 0-4
4 mode 1: 4-4
2026-12-31T22:00:00 2027-01-01T06:00:00 2027-01-01T14:00:00 2027-01-01T22:00:00 2027-01-02T06:00:00" ""
echo "1:1:0 2:9:7 3:1:3" >"$work/before"
labels --before "$work/before"
says "a picture with an earlier schedule of another project" 0 "activities 4 resources 1
4 activities, makespan 4 (at least 3 by the longest chain)
1 mode 1: 0-0, before 1:0-0
2 mode 1: 0-3
3 mode 2: 0-4, before 1:3-5
4 mode 1: 4-4
0 1 2 3 4 5" ""
told "1 1 0"
silent "verify --all: no schedule" "farm: no schedule Words" verify --all "$work/text" "$work/schedule"
"$farm" verify "$long" "$work/none" >"$work/out" 2>"$work/err" </dev/null
status=$?
says "verify: a missing schedule" 1 "" "$missing"
"$farm" verify "$work/none" "$work/schedule" >"$work/out" 2>"$work/err" </dev/null
status=$?
says "verify: a missing file" 1 "" "$missing"
