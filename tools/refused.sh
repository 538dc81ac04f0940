#!/bin/bash
# Runs the program on sessions once for each of its allocations, which is refused, and then once for each with every k-th from there on
# refused as well, k of 1, 2 and 7. Each run has to end with status 1 and nothing written, or with status 0 and the report. Sessions whose
# report is not the same whoever goes first cannot be tried with workers.
# usage: tools/refused.sh                       the sessions of the list below, with 0 and 2 workers; two run side by side
#        tools/refused.sh WORKERS SESSION       one session
# A line for each: how many runs ended in which way. Status 1 if one ended in another. ZEDBUF names a program.
set -euo pipefail
here=$(cd "$(dirname "$0")" && pwd)
program=${ZEDBUF:-$here/../crates/zedbuf/out/zedbuf}
[ -x "$program" ] || { echo "no program $program: name it in ZEDBUF" >&2; exit 1; }
work=$(mktemp -d)
trap 'rm -rf "$work"' EXIT
cc -O2 -shared -fPIC -o "$work/refused.so" "$here/refused.c"

# the session of a case of crates/session_tests/data
session_of() {
    sed '1,/^--- session$/d; /^--- output$/,$d' "$here/../crates/session_tests/data/$1.case" >"$work/$1"
    echo "$work/$1"
}

# ran PLACE SESSION NUMBER EVERY WORD..: runs the words with those allocations refused; the status, and how many allocations there were
ran() {
    local place=$1 session=$2 number=$3 every=$4 status=0
    shift 4
    timeout 60 env REFUSED="$number" EVERY="$every" LD_PRELOAD="$work/refused.so" "$program" "$@" \
        <"$session" >"$place.report" 3>"$place.made" || status=$?
    # a program that was killed has written no number
    echo "$status $(cat "$place.made")"
}

# tried NAME SESSION WORD..: each run of the words on the session; a line that says how they ended
tried() {
    local name=$1 session=$2 place status made count every number runs=0 nothing=0 whole=0 wrong=0
    shift 2
    place=$(mktemp -p "$work")
    read -r status made <<<"$(ran "$place" "$session" 0 0 "$@")"
    [ "$status" = 0 ] || { echo "$name: status $status with nothing refused"; return 1; }
    cp "$place.report" "$place.wanted"
    for every in 0 1 2 7; do
        # with threads a run may make some more allocations than another
        for ((number = 1; number <= made; number++)); do
            read -r status count <<<"$(ran "$place" "$session" "$number" "$every" "$@")"
            [ "$every" != 0 ] || made=$((count > made ? count : made))
            runs=$((runs + 1))
            if [ "$status" = 1 ] && [ ! -s "$place.report" ]; then
                nothing=$((nothing + 1))
            elif [ "$status" = 0 ] && cmp -s "$place.report" "$place.wanted"; then
                whole=$((whole + 1))
            else
                wrong=$((wrong + 1))
                echo "$name: allocation $number, every $every: status $status, $(wc -c <"$place.report") bytes written"
            fi
        done
    done
    echo "$name: $made allocations, $runs runs: $nothing with status 1 and nothing written, $whole with the report, $wrong with another end"
    [ "$wrong" = 0 ]
}

# the list: for each a name, its session and its words
listed() {
    local workers
    for workers in 0 2; do
        echo "an edit, $workers workers|$(session_of an_edit_and_its_text)|replay --workers $workers"
        echo "a late branch, $workers workers|$(session_of an_edit_before_a_later_branch)|replay --workers $workers"
        echo "a refusal while settling, $workers workers|$(session_of an_operation_refused_after_it_waited)|replay --workers $workers"
        echo "finds, $workers workers|$(session_of a_find_after_an_edit)|replay --workers $workers"
        echo "anchors, marks and undos, $workers workers|$here/../examples/caret.session|replay --workers $workers"
        echo "a reopened replica, $workers workers|$(session_of a_reopened_replica)|replay --workers $workers"
    done
    echo "selections|$here/../examples/selections.session|replay --workers 0"
    echo "folds|$here/../examples/folds.session|replay --workers 0"
    echo "excerpts|$here/../examples/excerpts.session|replay --workers 0"
    echo "pack|$here/../examples/caret.session|pack"
    echo "check|$here/../examples/caret.session|check"
    echo "migrate|$here/../examples/caret.session|migrate"
    echo "make|/dev/null|make --seed 5 --replicas 2 --edits 10"
}

if [ $# = 2 ]; then
    tried "$2, $1 workers" "$2" replay --workers "$1"
    exit
fi
[ $# = 0 ] || { sed -n '/^# usage/,/^# A line/p' "$0" >&2; exit 2; }
listed >"$work/list"
number=0
while IFS='|' read -r name session words; do
    [ "$(jobs -rp | wc -l)" -lt 2 ] || wait -n || true
    number=$((number + 1))
    # shellcheck disable=SC2086 # the words of a command line
    { tried "$name" "$session" $words || touch "$work/wrong"; } >"$work/line.$number" </dev/null &
done <"$work/list"
wait
for ((line = 1; line <= number; line++)); do
    cat "$work/line.$line"
done
[ ! -e "$work/wrong" ]
