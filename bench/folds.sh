#!/bin/sh
# Times spans of folds, in turn: the proved ones, and plain ones in a tree of the same form in Rust.
# usage: bench/folds.sh [COUNT] [ROUNDS]     the medians of the rounds, in microseconds, and their ratios; then the bytes of memory a span
set -eu
here=$(cd "$(dirname "$0")" && pwd)
count=${1:-100000}
rounds=${2:-5}
work=$(mktemp -d)
trap 'rm -rf "$work"' EXIT
rustc -O --edition 2021 -o "$work/folds" "$here/folds.rs"
proved=${BENCH:-}
if [ -z "$proved" ]; then
    (cd "$here/../crates/tree_bench" && rt run -- folds 100 >/dev/null)
    proved=$here/../crates/tree_bench/out/tree_bench
fi
[ -x "$proved" ] || { echo "no program $proved: name it in BENCH" >&2; exit 1; }
round=0
while [ "$round" -lt "$rounds" ]; do
    "$proved" folds "$count" timed | sed 's/^/proved /' >>"$work/times"
    "$work/folds" "$count" | sed 's/^/plain /' >>"$work/times"
    round=$((round + 1))
done
awk -v peers=plain -v width=14 -f "$here/medians.awk" "$work/times"
# The peak of a run, in KiB.
peak() {
    /usr/bin/time -f %M -o "$work/peak" "$@" >/dev/null
    tail -n 1 "$work/peak"
}
spans=$(awk '$2 == "Folds" { print $3; exit }' "$work/times")
for who in proved plain; do
    program=$([ "$who" = proved ] && echo "$proved folds" || echo "$work/folds")
    all=$(peak $program "$count") none=$(peak $program 0)
    echo "$who: $(((all - none) * 1024 / spans)) bytes a span at the peak"
done
