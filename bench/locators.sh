#!/bin/sh
# Times locators, in turn: the proved ones, and a `Vec` of digits for each in Rust, put at the same places.
# usage: bench/locators.sh [COUNT] [ROUNDS] [TRACE]   for each pattern the medians of the rounds, in microseconds, and their ratio
set -eu
here=$(cd "$(dirname "$0")" && pwd)
count=${1:-8000}
rounds=${2:-3}
trace=${3:-}
work=$(mktemp -d)
trap 'rm -rf "$work"' EXIT
rustc -O --edition 2021 -o "$work/locators" "$here/locators.rs"
proved=${BENCH:-}
if [ -z "$proved" ]; then
    (cd "$here/../crates/tree_bench" && rt run -- locators </dev/null >/dev/null)
    proved=$here/../crates/tree_bench/out/tree_bench
fi
[ -x "$proved" ] || { echo "no program $proved: name it in BENCH" >&2; exit 1; }
for pattern in ${trace:+typing} random front before after turns twice; do
    pairs=$work/$pattern
    "$work/locators" pairs "$pattern" "$([ "$pattern" = typing ] && echo 1000000 || echo "$count")" "$trace" >"$pairs"
    round=0
    while [ "$round" -lt "$rounds" ]; do
        "$proved" locators timed <"$pairs" | sed 's/^/proved /' >>"$work/times"
        "$work/locators" vec <"$pairs" | sed 's/^/vec /' >>"$work/times"
        round=$((round + 1))
    done
    echo "$pattern, $(wc -l <"$pairs") locators"
    awk -v peers=vec -v width=14 -f "$here/medians.awk" "$work/times"
    rm "$work/times"
done
