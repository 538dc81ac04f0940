#!/bin/sh
# Times work on trees, in turn: the proved tree, a plain tree of the same form in Rust, and the standard map in Rust.
# usage: bench/tree.sh [COUNT] [ROUNDS]     the medians of the rounds, in microseconds, and their ratios
set -eu
here=$(cd "$(dirname "$0")" && pwd)
count=${1:-1000000}
rounds=${2:-5}
work=$(mktemp -d)
trap 'rm -rf "$work"' EXIT
rustc -O --edition 2021 -o "$work/peer" "$here/tree.rs"
proved=${BENCH:-}
if [ -z "$proved" ]; then
    (cd "$here/../crates/tree_bench" && rt run -- tree 1 >/dev/null)
    proved=$here/../crates/tree_bench/out/tree_bench
fi
[ -x "$proved" ] || { echo "no program $proved: name it in BENCH" >&2; exit 1; }
round=0
while [ "$round" -lt "$rounds" ]; do
    "$proved" tree "$count" timed | sed 's/^/proved /' >>"$work/times"
    "$work/peer" tree "$count" | sed 's/^/tree /' >>"$work/times"
    "$work/peer" map "$count" | sed 's/^/map /' >>"$work/times"
    round=$((round + 1))
done
awk -v peers="tree map" -v width=10 -f "$here/medians.awk" "$work/times"
