#!/bin/sh
# Times publishing, in turn: the proved publisher and reader, and an Arc swapped under a Mutex in Rust.
# usage: bench/publish.sh [BYTES] [TIMES] [ROUNDS]     the medians of the rounds, in microseconds, and their ratios
set -eu
here=$(cd "$(dirname "$0")" && pwd)
bytes=${1:-16777216}
times=${2:-1000000}
rounds=${3:-3}
work=$(mktemp -d)
trap 'rm -rf "$work"' EXIT
rustc -O --edition 2021 -o "$work/publish" "$here/publish.rs"
proved=${BENCH:-}
if [ -z "$proved" ]; then
    (cd "$here/../crates/bench" && rt run -- publish 1000 10 >/dev/null)
    proved=$here/../crates/bench/out/bench
fi
[ -x "$proved" ] || { echo "no program $proved: name it in BENCH" >&2; exit 1; }
round=0
while [ "$round" -lt "$rounds" ]; do
    "$proved" publish "$bytes" "$times" timed | sed 's/^/proved /' >>"$work/times"
    "$work/publish" "$bytes" "$times" | sed 's/^/mutex /' >>"$work/times"
    round=$((round + 1))
done
awk -v peers="mutex" -v width=14 -f "$here/medians.awk" "$work/times"
