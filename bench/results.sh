#!/bin/bash
# Runs the works of results.txt one after the other, keeps what each prints in measured/, and writes RESULTS.md of it.
# usage: bench/results.sh [NAME..]     these works, or all; of the others measured/ has what they printed before
# PROGRAMS names a folder with the built programs tree_bench, bench, wire_bench and zedbuf; without it `rt run` builds them. LIST and KEPT name another
# list and another folder; RESULTS.md is then written on standard output.
set -euo pipefail
here=$(cd "$(dirname "$0")" && pwd)
list=${LIST:-$here/results.txt}
kept=${KEPT:-$here/measured}
mkdir -p "$kept"
work=$(mktemp -d)
trap 'rm -rf "$work"' EXIT
cc -O2 -shared -fPIC -o "$work/clock.so" "$here/processor_clock.c"

# built NAME: the path of a program
built() {
    if [ -n "${PROGRAMS:-}" ]; then
        echo "$PROGRAMS/$1"
        return
    fi
    (cd "$here/../crates/$1" && rt run -- none </dev/null >/dev/null) || true
    echo "$here/../crates/$1/out/$1"
}

# machine: the processors and their model
machine() { echo "$(nproc) processors ($(lscpu | sed -n 's/^Model name: *//p'))"; }

# ran PROGRAM CLOCK COMMAND: the commit, the day, the machine and its load, the command, and what it prints
ran() {
    local path clock=
    path=$(built "$1")
    [ "$2" != processor ] || clock=$work/clock.so
    echo "commit $(git -C "$here" rev-parse --short=8 HEAD), $(date +%F), on $(machine), load $(cut -d ' ' -f 1-3 /proc/loadavg)"
    echo "$3"
    (cd "$here/.." && BENCH=$path ZEDBUF=$path LD_PRELOAD=$clock bash -c "$3" </dev/null 2>&1) || echo "it ended with status $?"
}

while read -r name program clock command; do
    case $name in '#'* | '') continue ;; esac
    [ $# = 0 ] || [[ " $* " = *" $name "* ]] || continue
    echo "$name" >&2
    ran "$program" "$clock" "$command" >"$work/$name"
    cp "$work/$name" "$kept/$name"
done <"$list"
if [ "$list" = "$here/results.txt" ]; then
    python3 -B "$here/results.py" "$list" "$kept" >"$here/RESULTS.md"
else
    python3 -B "$here/results.py" "$list" "$kept"
fi
