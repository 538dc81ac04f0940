#!/bin/bash
# Times the program on a session with edits of a kind, which session.awk lists.
# usage: bench/session.sh [BYTES] [COUNT] [KIND] [LAG]     for the base alone and with the edits: seconds, processor seconds, peak memory
#        COMMANDS='check migrate' bench/session.sh ..      the same of each command with the edits, and how much more the last takes than the first
set -euo pipefail
here=$(cd "$(dirname "$0")" && pwd)
bytes=${1:-1048576}
count=${2:-20000}
kind=${3:-random}
lag=${4:-0}
commands=${COMMANDS:-}
program=${ZEDBUF:-$here/../zedbuf}
[ -x "$program" ] || { echo "no program $program: name it in ZEDBUF" >&2; exit 1; }
work=$(mktemp -d)
trap 'rm -rf "$work"' EXIT
# the launcher builds the program first, where that is still to be done
echo '["zedbuf",1,"",[1]]' | "$program" replay >/dev/null

# make_session COUNT: a session with so many edits
make_session() {
    awk -v bytes="$bytes" -v count="$1" -v kind="$kind" -v lag="$lag" -f "$here/session.awk" >"$work/session"
}

# run NAME COUNT COMMAND: the command on the session, which has so many edits
run() {
    TIMEFORMAT='%R %U'
    {
        time {
            "$program" "$3" <"$work/session" >"$work/report" &
            pid=$!
            while peak=$(awk '/^VmHWM/ { print $2 }' "/proc/$pid/status" 2>/dev/null) && [ -n "$peak" ]; do
                echo "$peak" >"$work/peak"
                sleep 0.02
            done
            wait "$pid"
        }
    } 2>"$work/time"
    # processor seconds take in those of the watch, which are few
    read -r whole user <"$work/time"
    echo "$1 $2 $whole $user $(cat "$work/peak")"
    grep '^replica ' "$work/report" >&2 || true
}

if [ -n "$commands" ]; then
    make_session "$count"
    for command in $commands; do
        run "$command" "$count" "$command"
    done | awk '
        { printf "%-8s %8.2f s, %8.2f s of a processor, %8d KiB\n", $1, $3, $4, $5 }
        NR == 1 { first = $4 }
        { last = $4 }
        END { printf "the last takes %.2f of the processor seconds of the first\n", last / first }'
    exit
fi

{
    make_session 0
    run base 0 replay
    make_session "$count"
    run edits "$count" replay
} | awk '
    { printf "%-6s %7d edits: %8.2f s, %8.2f s of a processor, %8d KiB\n", $1, $2, $3, $4, $5 }
    NR == 1 { user = $4; peak = $5 }
    NR == 2 && $2 > 0 {
        printf "an edit: %.1f microseconds of a processor, %.0f bytes at the peak\n", ($4 - user) / $2 * 1000000, ($5 - peak) / $2 * 1024
    }'
