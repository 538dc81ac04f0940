#!/bin/bash
# Times records of operations, in turn: the proved reader and writer, and plain ones of the same format in Rust.
# usage: bench/records.sh [COUNT] [ROUNDS]          medians of the rounds, in microseconds
#        COUNTED=1 bench/records.sh [COUNT]         instructions of the reader's and the writer's calls, which valgrind counts
# COUNT: how many records of 42 bytes. Streams of these and of texts of 4 KiB are read in feeds of several sizes. Then records of 65,536 pieces,
# entries or counts come a byte a feed, to the proved reader alone. BENCH names a built program of crates/wire_bench.
set -euo pipefail
here=$(cd "$(dirname "$0")" && pwd)
count=${1:-1000000}
rounds=${2:-3}
work=$(mktemp -d)
trap 'rm -rf "$work"' EXIT
rustc -O --edition 2021 -o "$work/records" "$here/records.rs"
proved=${BENCH:-}
if [ -z "$proved" ]; then
    (cd "$here/../crates/wire_bench" && rt run -- times 1 </dev/null >/dev/null)
    proved=$here/../crates/wire_bench/out/wire_bench
fi
[ -x "$proved" ] || { echo "no program $proved: name it in BENCH" >&2; exit 1; }

# timed SIZE: the works of both programs on the stream, in feeds of that many bytes
timed() {
    for ((round = 0; round < rounds; round++)); do
        "$proved" times "$1" timed <"$work/stream" | sed 's/^/proved /' >>"$work/times"
        "$work/records" read "$1" <"$work/stream" | sed 's/^/plain /' >>"$work/times"
    done
    awk -v peers=plain -v width=14 -f "$here/medians.awk" "$work/times"
    rm "$work/times"
}

# counted SIZE FUNCTION COMMAND..: the instructions inside a function, per byte of the stream
counted() {
    valgrind --tool=callgrind --callgrind-out-file=/dev/null --toggle-collect="$2" "${@:3}" <"$work/stream" 2>&1 >/dev/null |
        awk -v size="$1" -v name="$2" -v bytes="$(wc -c <"$work/stream")" '
            /Collected/ { printf "%6d  %-32s %12d %10.2f a byte\n", size, name, $NF, $NF / bytes }'
}

# both SIZE: the instructions of both readers and both writers
both() {
    counted "$1" op_wire::reader::WireReader::feed "$proved" times "$1"
    counted "$1" records::Reader::feed "$work/records" read "$1"
    counted "$1" op_wire::encoding::encode "$proved" times "$1"
    counted "$1" records::encode "$work/records" read "$1"
}

for kind in small texts; do
    "$work/records" make "$kind" "$([ "$kind" = small ] && echo "$count" || echo "$((count / 50))")" >"$work/stream"
    for size in 42 1000 65536; do
        echo "$kind, $(wc -c <"$work/stream") bytes, $size bytes a feed"
        if [ -n "${COUNTED:-}" ]; then both "$size"; else timed "$size"; fi
    done
done
for kind in small texts pieces entries counts; do
    "$work/records" make "$kind" "$([ "$kind" = small ] && echo 20000 || echo 1)" >"$work/stream"
    echo "$kind, $(wc -c <"$work/stream") bytes, a byte a feed"
    if [ -n "${COUNTED:-}" ]; then
        counted 1 op_wire::reader::WireReader::feed "$proved" times 1
    else
        "$proved" times 1 timed <"$work/stream" | awk -v bytes="$(wc -c <"$work/stream")" '
            $1 == "Read" { printf "%.1f nanoseconds a byte\n", $3 * 1000 / bytes }'
    fi
done
