#!/bin/sh
# Times letters that are typed through the C interface, and, in the next column, the same letters through the library.
# usage: bench/c_interface.sh [EDITS] [ROUNDS]     the medians of the rounds, in microseconds, and their ratio
#        COUNTED=1 bench/c_interface.sh [EDITS]    instructions of an edit, which valgrind counts, in place of times
# BENCH names a built program of crates/bench, and ARCHIVE a built libzedbuf_c.a.
set -eu
here=$(cd "$(dirname "$0")" && pwd)
edits=${1:-1000000}
rounds=${2:-3}
work=$(mktemp -d)
trap 'rm -rf "$work"' EXIT
bench=${BENCH:-}
if [ -z "$bench" ]; then
    (cd "$here/../crates/bench" && rt run -- endings 60 100 >/dev/null)
    bench=$here/../crates/bench/out/bench
fi
[ -x "$bench" ] || { echo "no program $bench: name it in BENCH" >&2; exit 1; }
archive=${ARCHIVE:-}
if [ -z "$archive" ]; then
    (cd "$here/../crates/zedbuf_c" && rt lib)
    archive=$here/../crates/zedbuf_c/out/libzedbuf_c.a
fi
gcc -O2 -I "$here/../include" "$here/c_interface.c" "$archive" "$(dirname "$(rt doc)")/c/liblibc_c.a" -o "$work/c_interface"

# counted PROGRAM WORD..: the instructions of a run
counted() {
    valgrind --tool=cachegrind --cache-sim=no --cachegrind-out-file=/dev/null "$@" 2>&1 >/dev/null |
        awk '/I +refs:/ { gsub(/,/, "", $NF); print $NF }'
}

if [ -n "${COUNTED:-}" ]; then
    # `bench endings` types them twice, once into a buffer that keeps line endings and once into one with LFs alone
    none=$(counted "$bench" endings 60 0) library=$(counted "$bench" endings 60 "$edits")
    empty=$(counted "$work/c_interface" 0) interface=$(counted "$work/c_interface" "$edits")
    awk -v c="$((interface - empty))" -v library="$((library - none))" -v edits="$edits" 'BEGIN {
        printf "%-14s %10s %10s %8s\n", "instructions", "C", "library", "C/library"
        printf "%-14s %10.0f %10.0f %8.3f\n", "TypeAsIs", c / edits, library / edits / 2, c / (library / 2) }'
    exit
fi
round=0
while [ "$round" -lt "$rounds" ]; do
    "$work/c_interface" "$edits" timed | sed 's/^/proved /' >>"$work/times"
    "$bench" endings 60 "$edits" timed | grep '^TypeAsIs' | sed 's/^/library /' >>"$work/times"
    round=$((round + 1))
done
awk -v peers=library -v width=14 -f "$here/medians.awk" "$work/times"
