#!/bin/bash
# Measures the program beside Yjs: both do the same sessions in turn, pinned to one core, and PEERS.md says what they took. peers.txt lists
# the sessions, session.awk makes them, yjs.cjs has Yjs do them, and peers.py writes PEERS.md and the plots.
# usage: bench/peers.sh [ROUNDS]     the least of the rounds is told; with nice -n -15 other work disturbs less
# What is absent of Debian's packages nodejs, node-yjs, node-lib0 and time is installed. ZEDBUF and BENCH name built programs; without them
# `rt run` builds them, and an empty BENCH leaves out its works. CORE names the core, else the last one is taken.
set -euo pipefail
here=$(cd "$(dirname "$0")" && pwd)
rounds=${1:-3}
core=${CORE:-$(($(nproc) - 1))}
work=$(mktemp -d)
trap 'rm -rf "$work"' EXIT
export NODE_PATH=/usr/share/nodejs

missing=()
for package in nodejs node-yjs node-lib0 time; do
    dpkg -s "$package" >/dev/null 2>&1 || missing+=("$package")
done
[ ${#missing[@]} = 0 ] || apt-get install -y --no-install-recommends "${missing[@]}" >/dev/null

# built CRATE WORD: the program of a crate, which WORD runs for a moment
built() {
    (cd "$here/../crates/$1" && rt run -- "$2" </dev/null >/dev/null)
    echo "$here/../crates/$1/out/$1"
}
zedbuf=${ZEDBUF:-$(built zedbuf --help)}
bench=${BENCH-$(built bench anchors)}
yjs=(node "$here/yjs.cjs")

# measured WHO SESSION COMMAND..: a line with processor seconds of the program and of the system, seconds and KiB at the peak
measured() {
    local who=$1 session=$2 user system clock TIMEFORMAT='%U %S %R'
    shift 2
    { time taskset -c "$core" /usr/bin/time -o "$work/peak" -f %M "$@" <"$work/$session" >"$work/$who" 2>"$work/error"; } 2>"$work/time" ||
        cat "$work/error" >&2
    read -r user system clock <"$work/time"
    echo "run $who $session $user $system $clock $(tail -n 1 "$work/peak")" >>"$work/runs"
}

# whether both end with the same texts, or, where two authors may write at one place, with texts of the same lengths
compared() {
    local shown=cat
    case $1 in rounds* | beside*) shown=lengths ;; esac
    cmp -s <(grep '^final' "$work/zedbuf" | $shown) <(grep '^final' "$work/yjs" | $shown) || echo "differs $1" >>"$work/runs"
}

lengths() { awk '{ print length }'; }

# one session, done by those who do it
session() {
    local name=$1 who=$2
    [ "$who" = yjs ] || measured zedbuf "$name" "$zedbuf" replay
    [ "$who" = zedbuf ] || measured yjs "$name" "${yjs[@]}" replay
    [ "$who" != both ] || compared "$name"
}

# called WHO COMMAND..: lines with the works that a command tells
called() {
    local who=$1
    shift
    taskset -c "$core" "$@" </dev/null | sed "s/^/call $who $call /" >>"$work/runs"
}

listed() { grep -v '^#' "$here/peers.txt"; }

echo "load $(cut -d ' ' -f 1 /proc/loadavg)" >"$work/runs"
listed | while read -r name who words; do
    # shellcheck disable=SC2046,SC2086
    awk $(printf -- '-v %s ' $words) -f "$here/session.awk" >"$work/$name"
    echo "edits $name $(grep -c '^\["edit' "$work/$name" || true)" >>"$work/runs"
done
for ((round = 1; round <= rounds; round++)); do
    listed | while read -r name who words; do
        session "$name" "$who"
    done
    measured checked paper_260000 "$zedbuf" check
    for call in ${bench:+"anchors 200000" "snapshot 1048576" "snapshot 16777216"}; do
        # shellcheck disable=SC2086
        called zedbuf "$bench" $call timed
        # shellcheck disable=SC2086
        called yjs "${yjs[@]}" $call
    done
    echo "load $(cut -d ' ' -f 1 /proc/loadavg)" >>"$work/runs"
done
measured held paper_260000 node --expose-gc "$here/yjs.cjs" replay
sed -n 's/^held \([0-9]*\).*/held \1/p' "$work/error" >>"$work/runs"
cp "$work/runs" "${RUNS:-/dev/null}"
python3 -B "$here/peers.py" "$work/runs" "$here"
