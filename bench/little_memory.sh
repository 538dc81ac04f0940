#!/bin/bash
# Runs the program with little memory, as `ulimit -v` gives it: on a session of 260,000 edits of one replica, and on one of short edits and
# finds over a base of 60 MiB with 4 workers. session.awk makes the sessions. Each run has to end, with status 0 and the report or with
# status 1 and nothing written, within twice the time that the session takes with all memory. Status 1 if one does not.
# usage: bench/little_memory.sh [MIB..]         the limits in MiB; 64 128 256 without words
# A line for each run: the limit, the status, seconds, seconds of a processor, and how it ended. ZEDBUF names a program.
set -euo pipefail
here=$(cd "$(dirname "$0")" && pwd)
[ $# -gt 0 ] || set -- 64 128 256
program=${ZEDBUF:-$here/../zedbuf}
[ -x "$program" ] || { echo "no program $program: name it in ZEDBUF" >&2; exit 1; }
work=$(mktemp -d)
trap 'rm -rf "$work"' EXIT
# the launcher builds the program first, where that is still to be done
echo '["zedbuf",1,"",[1]]' | "$program" replay >/dev/null

# ran SESSION WORKERS KIB SECONDS: runs it within so much memory and time; its status and its times
ran() {
    local status=0
    command time -o "$work/time" -f '%e %U' bash -c 'ulimit -c 0 -v "$1"; exec timeout -s KILL "${@:2}"' - "$3" "$4" \
        "$program" replay --workers "$2" <"$work/$1" >"$work/report" 2>"$work/said" || status=$?
    echo "$status $(tail -n 1 "$work/time")"
}

# the lines of a report that are the same whoever goes first
fixed() {
    sed -E 's/^(find [0-9]+) at .*/\1/' "$1"
}

# tried NAME SESSION WORKERS MIB..: a line for each limit; status 1 where one ended as it should not
tried() {
    local name=$1 session=$2 workers=$3 limit status seconds processor usual most end wrong=0
    shift 3
    read -r status usual processor <<<"$(ran "$session" "$workers" unlimited 600)"
    [ "$status" = 0 ] || { echo "$name: status $status with all memory"; return 1; }
    echo "$name, all memory: status 0, $usual s, $processor s of a processor"
    fixed "$work/report" >"$work/wanted"
    most=$(awk -v usual="$usual" 'BEGIN { print 2 * usual }')
    for limit; do
        read -r status seconds processor <<<"$(ran "$session" "$workers" $((limit * 1024)) "$most")"
        end=wrong
        if [ "$status" = 1 ] && [ ! -s "$work/report" ]; then
            end="nothing written"
        elif [ "$status" = 0 ] && fixed "$work/report" | cmp -s - "$work/wanted"; then
            end="the report"
        fi
        [ "$end" != wrong ] || wrong=1
        echo "$name, $limit MiB: status $status, $seconds s, $processor s of a processor: $end"
    done
    return "$wrong"
}

awk -v bytes=0 -v count=260000 -v kind=typing -f "$here/session.awk" >"$work/edits"
awk -v bytes=$((60 << 20)) -v count=2000 -v kind=random -v queries=40 -f "$here/session.awk" >"$work/base"
status=0
tried "260,000 edits" edits 0 "$@" || status=1
tried "60 MiB and 4 workers" base 4 "$@" || status=1
exit "$status"
