#!/bin/sh
# Times folds of a snapshot, in turn: the proved maps, and plain ones of the same form in Rust.
# usage: bench/fold_maps.sh [BYTES] [COUNT] [ROUNDS]     the medians of the rounds, in microseconds, and their ratios
set -eu
here=$(cd "$(dirname "$0")" && pwd)
bytes=${1:-67108864}
count=${2:-100000}
rounds=${3:-3}
work=$(mktemp -d)
trap 'rm -rf "$work"' EXIT
rustc -O --edition 2021 -o "$work/fold_maps" "$here/fold_maps.rs"
proved=${BENCH:-}
if [ -z "$proved" ]; then
    (cd "$here/../crates/bench" && rt run -- folds 1000 10 >/dev/null)
    proved=$here/../crates/bench/out/bench
fi
[ -x "$proved" ] || { echo "no program $proved: name it in BENCH" >&2; exit 1; }
round=0
while [ "$round" -lt "$rounds" ]; do
    "$proved" folds "$bytes" "$count" timed | sed 's/^/proved /' >>"$work/times"
    "$work/fold_maps" "$bytes" "$count" | sed 's/^/plain /' >>"$work/times"
    round=$((round + 1))
done
awk -v peers=plain -v width=14 -f "$here/medians.awk" "$work/times"
