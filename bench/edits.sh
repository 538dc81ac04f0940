#!/bin/sh
# Times edits among fragments, in turn: the proved placing, and plain fragments of the same form in Rust.
# usage: bench/edits.sh [FRAGMENTS] [ROUNDS]     the medians of the rounds, in microseconds, and their ratios
set -eu
here=$(cd "$(dirname "$0")" && pwd)
fragments=${1:-16000}
rounds=${2:-3}
work=$(mktemp -d)
trap 'rm -rf "$work"' EXIT
rustc -O --edition 2021 -o "$work/edits" "$here/edits.rs"
proved=${BENCH:-}
if [ -z "$proved" ]; then
    (cd "$here/../crates/bench" && rt run -- edits 100 >/dev/null)
    proved=$here/../crates/bench/out/bench
fi
[ -x "$proved" ] || { echo "no program $proved: name it in BENCH" >&2; exit 1; }
round=0
while [ "$round" -lt "$rounds" ]; do
    "$proved" edits "$fragments" timed | sed 's/^/proved /' >>"$work/times"
    "$work/edits" "$fragments" 2>/dev/null | sed 's/^/plain /' >>"$work/times"
    round=$((round + 1))
done
awk -v peers="plain" -v width=14 -f "$here/medians.awk" "$work/times"
