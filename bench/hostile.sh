#!/bin/bash
# Times the program on what a peer that is not trusted may send, which hostile.awk lists, each as the difference of two sessions.
# usage: bench/hostile.sh [COUNT] [EDITS] [ROUNDS]     medians of the rounds, in microseconds of a processor; bytes at the peak
#        COUNTED=1 bench/hostile.sh [COUNT] [EDITS]    in thousands of instructions, which valgrind counts; one round, no bytes
set -euo pipefail
here=$(cd "$(dirname "$0")" && pwd)
count=${1:-100000}
edits=${2:-20000}
rounds=${3:-3}
measure=timed
[ -z "${COUNTED:-}" ] || { measure=counted; rounds=1; }
program=${ZEDBUF:-$here/../zedbuf}
[ -x "$program" ] || { echo "no program $program: name it in ZEDBUF" >&2; exit 1; }
work=$(mktemp -d)
trap 'rm -rf "$work"' EXIT
# the launcher builds the program first, where that is still to be done
echo '["zedbuf",1,"",[1]]' | "$program" replay >/dev/null

# made NAME WORD..: a session, by words of hostile.awk
made() {
    local name=$1
    shift
    awk "$@" -f "$here/hostile.awk" >"$work/$name"
}

# timed NAME: a line with the processor seconds that a session takes, and the peak of memory in KiB
timed() {
    command time -a -o "$work/costs" -f "$1 %U %M" "$program" replay --workers 0 <"$work/$1" >"$work/report"
}

# counted NAME: a line with the instructions that a session takes, in thousand millions
counted() {
    valgrind --tool=cachegrind --cache-sim=no --cachegrind-out-file=/dev/null \
        "$program" replay --workers 0 <"$work/$1" 2>"$work/counts" >"$work/report"
    awk -v name="$1" '/I +refs:/ { gsub(/,/, "", $NF); print name, $NF / 1000000000, 0 }' "$work/counts" >>"$work/costs"
}

# the first settling lists what each operation misses, which the sessions without edits have to do, too
made absent -v kind=waiting -v count="$count" -v given=0 -v edits=1
made waiting -v kind=waiting -v count="$count" -v given=1 -v edits=1
made absent_edits -v kind=waiting -v count="$count" -v given=0 -v edits="$edits"
made waiting_edits -v kind=waiting -v count="$count" -v given=1 -v edits="$edits"
made unsettled -v kind=faulty -v count="$count" -v given=0
made settled -v kind=faulty -v count="$count" -v given=1
made no_pieces -v kind=pieces -v count=60 -v given=0
made pieces -v kind=pieces -v count=60 -v given=1
made no_entries -v kind=entries -v count=900 -v given=0
made entries -v kind=entries -v count=900 -v given=1
for ((round = 1; round <= rounds; round++)); do
    for name in absent waiting absent_edits waiting_edits unsettled settled no_pieces pieces no_entries entries; do
        "$measure" "$name"
    done
done
awk -v count="$count" -v edits="$edits" -v measure="$measure" '
    function median(name, field,    i, j, t, k, a) {
        k = n[name]
        for (i = 1; i <= k; i++) a[i] = value[name, i, field] + 0
        for (i = 2; i <= k; i++) for (j = i; j > 1 && a[j - 1] > a[j]; j--) { t = a[j]; a[j] = a[j - 1]; a[j - 1] = t }
        return a[int((k + 1) / 2)]
    }
    function each(name, without, times) { return (median(name, 1) - median(without, 1)) / times * 1000000 }
    { n[$1]++; value[$1, n[$1], 1] = $2; value[$1, n[$1], 2] = $3 }
    END {
        few = each("absent_edits", "absent", 2 * edits - 2)
        many = each("waiting_edits", "waiting", 2 * edits - 2)
        printf "an edit or a take in order, none waiting: %.1f; %d waiting: %.1f; ratio %.3f\n", few, count, many, (few > 0 ? many / few : 0)
        printf "an operation that begins to wait: %.1f", each("waiting", "absent", count)
        if (measure == "timed") printf "; bytes at the peak: %.0f", (median("waiting", 2) - median("absent", 2)) * 1024 / count
        printf "\n"
        printf "an operation refused while settling: %.1f\n", each("settled", "unsettled", count)
        printf "an operation of 65,536 pieces: %.0f\n", each("pieces", "no_pieces", 60)
        printf "an operation of 1,023 entries: %.0f\n", each("entries", "no_entries", 900)
    }' "$work/costs"
