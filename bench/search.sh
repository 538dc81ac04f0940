#!/bin/sh
# Times searches, in turn: the proved search of a rope, and two searches of one contiguous text in Rust.
# usage: bench/search.sh [BYTES] [ROUNDS]     the medians of the rounds, in microseconds, and their ratios
set -eu
here=$(cd "$(dirname "$0")" && pwd)
bytes=${1:-67108864}
rounds=${2:-3}
work=$(mktemp -d)
trap 'rm -rf "$work"' EXIT
rustc -O --edition 2021 -o "$work/search" "$here/search.rs"
proved=${BENCH:-}
if [ -z "$proved" ]; then
    (cd "$here/../crates/tree_bench" && rt run -- search 1000 >/dev/null)
    proved=$here/../crates/tree_bench/out/tree_bench
fi
[ -x "$proved" ] || { echo "no program $proved: name it in BENCH" >&2; exit 1; }
round=0
while [ "$round" -lt "$rounds" ]; do
    "$proved" search "$bytes" timed | sed 's/^/proved /' >>"$work/times"
    "$work/search" flat "$bytes" | sed 's/^/flat /' >>"$work/times"
    "$work/search" linear "$bytes" | sed 's/^/linear /' >>"$work/times"
    round=$((round + 1))
done
awk -v peers="flat linear" -v width=14 -f "$here/medians.awk" "$work/times"
