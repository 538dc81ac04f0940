#!/bin/sh
# Times excerpts of several buffers, in turn: the proved multibuffer, and a plain one in Rust.
# usage: bench/multi_buffers.sh [BYTES] [COUNT] [ROUNDS]     the medians of the rounds, in microseconds, and their ratios
set -eu
here=$(cd "$(dirname "$0")" && pwd)
bytes=${1:-1048576}
count=${2:-1000}
rounds=${3:-3}
work=$(mktemp -d)
trap 'rm -rf "$work"' EXIT
rustc -O --edition 2021 -o "$work/multi_buffers" "$here/multi_buffers.rs"
proved=${BENCH:-}
if [ -z "$proved" ]; then
    (cd "$here/../crates/excerpt_bench" && rt run -- 1000 10 >/dev/null)
    proved=$here/../crates/excerpt_bench/out/excerpt_bench
fi
[ -x "$proved" ] || { echo "no program $proved: name it in BENCH" >&2; exit 1; }
round=0
while [ "$round" -lt "$rounds" ]; do
    "$proved" "$bytes" "$count" timed | sed 's/^/proved /' >>"$work/times"
    "$work/multi_buffers" "$bytes" "$count" | sed 's/^/plain /' >>"$work/times"
    round=$((round + 1))
done
awk -v peers=plain -v width=14 -f "$here/medians.awk" "$work/times"
