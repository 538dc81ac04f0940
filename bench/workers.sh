#!/bin/bash
# Times the program on a session with edits and queries, with several numbers of workers beside each other, and on the same session
# without the queries. session.awk makes the sessions.
# usage: bench/workers.sh [BYTES] [EDITS] [QUERIES] [ROUNDS]     the medians of the rounds: seconds, processor seconds, those of the system
set -euo pipefail
here=$(cd "$(dirname "$0")" && pwd)
bytes=${1:-16777216}
edits=${2:-20000}
queries=${3:-200}
rounds=${4:-3}
program=${ZEDBUF:-$here/../zedbuf}
[ -x "$program" ] || { echo "no program $program: name it in ZEDBUF" >&2; exit 1; }
work=$(mktemp -d)
trap 'rm -rf "$work"' EXIT
# the launcher builds the program first, where that is still to be done
echo '["zedbuf",1,"",[1]]' | "$program" replay >/dev/null

# made NAME WORD..: a session, by further words of session.awk
made() {
    local name=$1
    shift
    awk -v bytes="$bytes" -v count="$edits" -v kind=random "$@" -f "$here/session.awk" >"$work/$name.session"
}

# timed NAME WORKERS: a line with the seconds that a session takes
timed() {
    local TIMEFORMAT='%R %U %S'
    { time "$program" replay --workers "$2" <"$work/$1.session" >"$work/$1.$2"; } 2>"$work/time"
    echo "$1 $2 $(cat "$work/time")" >>"$work/times"
}

# a session's events and replicas are the same with any number of workers, and so is which queries there are
alike() {
    sed -E 's/^((find|point) [0-9]+) at .*/\1/' "$work/$1.0" >"$work/first"
    sed -E 's/^((find|point) [0-9]+) at .*/\1/' "$work/$1.$2" | cmp - "$work/first"
}

made edits
made points -v queries="$queries" -v asked=point
made finds -v queries="$queries"
for ((round = 1; round <= rounds; round++)); do
    timed edits 0
    for workers in 0 1 2 4; do
        timed points "$workers"
        timed finds "$workers"
        alike points "$workers"
        alike finds "$workers"
    done
done
awk '
    function median(key, place,    i, j, t, k, a) {
        k = n[key]
        for (i = 1; i <= k; i++) a[i] = times[key, i, place] + 0
        for (i = 2; i <= k; i++) for (j = i; j > 1 && a[j - 1] > a[j]; j--) { t = a[j]; a[j] = a[j - 1]; a[j - 1] = t }
        return a[int((k + 1) / 2)]
    }
    {
        key = $1 " " $2
        if (!(key in n)) order[++kinds] = key
        n[key]++
        for (i = 3; i <= 5; i++) times[key, n[key], i] = $i
    }
    END {
        printf "%-8s %7s %10s %10s %10s %12s\n", "session", "workers", "seconds", "processor", "system", "than edits"
        for (i = 1; i <= kinds; i++) {
            split(order[i], name)
            whole = median(order[i], 3)
            printf "%-8s %7d %10.2f %10.2f %10.2f %+12.2f\n", name[1], name[2], whole, median(order[i], 4), median(order[i], 5), whole - median("edits 0", 3)
        }
    }' "$work/times"
