#!/bin/sh
# Times work on ropes, in turn: the proved rope, a plain rope of the same form in Rust, and libstdc++'s rope.
# usage: bench/rope.sh [BYTES] [COUNT] [ROUNDS]     the medians of the rounds, in microseconds, and their ratios
set -eu
here=$(cd "$(dirname "$0")" && pwd)
bytes=${1:-16777216}
count=${2:-200000}
rounds=${3:-3}
work=$(mktemp -d)
trap 'rm -rf "$work"' EXIT
rustc -O --edition 2021 -o "$work/plain" "$here/rope.rs"
g++ -O2 -w -o "$work/crope" "$here/rope.cc"
proved=${BENCH:-}
if [ -z "$proved" ]; then
    (cd "$here/../crates/tree_bench" && rt run -- rope 1000 10 >/dev/null)
    proved=$here/../crates/tree_bench/out/tree_bench
fi
[ -x "$proved" ] || { echo "no program $proved: name it in BENCH" >&2; exit 1; }
round=0
while [ "$round" -lt "$rounds" ]; do
    "$proved" rope "$bytes" "$count" timed | sed 's/^/proved /' >>"$work/times"
    "$work/plain" "$bytes" "$count" | sed 's/^/plain /' >>"$work/times"
    "$work/crope" "$bytes" "$count" | sed 's/^/crope /' >>"$work/times"
    round=$((round + 1))
done
awk -v peers="plain crope" -v width=14 -f "$here/medians.awk" "$work/times"
