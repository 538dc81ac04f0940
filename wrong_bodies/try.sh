#!/bin/sh
# Tries wrong bodies: those that the gate tries (crates/NAME/must-fail) and those here beside it, of the crates that are named
# or of all. The prover has to refuse each. README.md beside this file has a row for each, which this rewrites.
#
#     wrong_bodies/try.sh [NAME..]      tries them
#     wrong_bodies/try.sh --rows        only rewrites the rows, after edits or crates have changed
#
# What is tried is the last commit, in a clone; so commit first. `rt must-fail NAME` there proves the crates below NAME, each once,
# then tries the edits of NAME over one another's work. RT_JOBS says how many crates are tried at a time, or else there are as many
# as processors.
set -eu
here=$(cd "$(dirname "$0")" && pwd)
exec python3 -B "$here/try.py" "$@"
