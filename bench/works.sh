#!/bin/sh
# Times works that have no peer: the medians of five runs of `bench WORK NUMBER..`, in microseconds.
# usage: bench/works.sh WORK NUMBER..     BENCH names a built program of crates/bench
set -eu
here=$(cd "$(dirname "$0")" && pwd)
proved=${BENCH:-}
if [ -z "$proved" ]; then
    (cd "$here/../crates/bench" && rt run -- forget 1 >/dev/null)
    proved=$here/../crates/bench/out/bench
fi
[ -x "$proved" ] || { echo "no program $proved: name it in BENCH" >&2; exit 1; }
for _ in 1 2 3 4 5; do
    "$proved" "$@" timed | sed 's/^/proved /'
done | awk -v peers="" -v width=16 -f "$here/medians.awk"
