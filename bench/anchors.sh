#!/bin/sh
# Times anchors among fragments, in turn: the proved calls, and a walk over the fragments one by one in Rust.
# usage: bench/anchors.sh [FRAGMENTS] [ROUNDS]     the medians of the rounds, in microseconds, and their ratios
set -eu
here=$(cd "$(dirname "$0")" && pwd)
fragments=${1:-200000}
rounds=${2:-3}
work=$(mktemp -d)
trap 'rm -rf "$work"' EXIT
rustc -O --edition 2021 -o "$work/anchors" "$here/anchors.rs"
proved=${BENCH:-}
if [ -z "$proved" ]; then
    (cd "$here/../crates/bench" && rt run -- anchors 100 >/dev/null)
    proved=$here/../crates/bench/out/bench
fi
[ -x "$proved" ] || { echo "no program $proved: name it in BENCH" >&2; exit 1; }
round=0
while [ "$round" -lt "$rounds" ]; do
    "$proved" anchors "$fragments" timed | sed 's/^/proved /' >>"$work/times"
    "$work/anchors" "$fragments" 2>/dev/null | sed 's/^/walk /' >>"$work/times"
    round=$((round + 1))
done
awk -v peers="walk" -v width=14 -f "$here/medians.awk" "$work/times"
