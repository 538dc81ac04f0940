#!/bin/sh
# Times the opening of buffers with lists of operations, and, in the next column, the taking of the same operations one by one.
# usage: bench/open.sh [COUNT] [ROUNDS]     the medians of the rounds, in microseconds, and their ratios; the peaks, in KiB
#        COUNTED=1 bench/open.sh [COUNT]    instructions of an operation, which valgrind counts, in place of times
# BENCH names a built program of crates/bench.
set -eu
here=$(cd "$(dirname "$0")" && pwd)
count=${1:-200000}
rounds=${2:-3}
work=$(mktemp -d)
trap 'rm -rf "$work"' EXIT
bench=${BENCH:-}
if [ -z "$bench" ]; then
    (cd "$here/../crates/bench" && rt run -- opened 100 >/dev/null)
    bench=$here/../crates/bench/out/bench
fi
[ -x "$bench" ] || { echo "no program $bench: name it in BENCH" >&2; exit 1; }

# counted WORD..: the instructions of a run
counted() {
    valgrind --tool=cachegrind --cache-sim=no --cachegrind-out-file=/dev/null "$bench" "$@" 2>&1 >/dev/null |
        awk '/I +refs:/ { gsub(/,/, "", $NF); print $NF }'
}

# peak WORD..: the peak of a run, in KiB
peak() {
    /usr/bin/time -f %M -o "$work/peak" "$bench" "$@" >/dev/null
    tail -n 1 "$work/peak"
}

kinds="Typed Random Rounds Undone"
if [ -n "${COUNTED:-}" ]; then
    kind=0
    for name in $kinds; do
        kind=$((kind + 1))
        list=$(counted dropped "$count" "$kind") opened=$(counted opened "$count" "$kind") taken=$(counted taken "$count" "$kind")
        echo "$name $((opened - list)) $((taken - list))"
    done | awk -v count="$count" '
        BEGIN { printf "%-14s %10s %10s %8s\n", "instructions", "opened", "taken", "o/taken" }
        { printf "%-14s %10.0f %10.0f %8.2f\n", $1, $2 / count, $3 / count, $2 / $3 }'
    exit
fi
round=0
while [ "$round" -lt "$rounds" ]; do
    { "$bench" opened "$count" timed; "$bench" refused "$count" timed; } | sed 's/^/proved /' >>"$work/times"
    "$bench" taken "$count" timed | sed 's/^/taken /' >>"$work/times"
    round=$((round + 1))
done
awk -v peers=taken -v width=14 -f "$here/medians.awk" "$work/times"
kind=0
for name in $kinds; do
    kind=$((kind + 1))
    echo "$name: $(peak opened "$count" "$kind") KiB at the peak opened, $(peak taken "$count" "$kind") taken, $(peak dropped "$count" "$kind") the list"
done
