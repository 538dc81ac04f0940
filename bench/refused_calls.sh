#!/bin/sh
# Runs a test of buffer_tests once for each of its allocations, which is refused: stops::stopped_calls_end_as_others has to pass each time,
# since a stopped call is called again. Other tests may fail, as an allocation is not tried twice there, but none may crash or hang.
# usage: bench/refused_calls.sh [FIRST [LAST [WORD]]]   WORD: the tests whose names contain it, `stops::` if left out, '' for all
# TESTS names the tests' program, which `rt test` leaves in crates/buffer_tests/out. One line: how many were refused and how many runs passed.
set -eu
here=$(cd "$(dirname "$0")/.." && pwd)
first=${1:-1} last=${2:-0} word=${3-stops::}
tests=${TESTS:-$here/crates/buffer_tests/out/buffer_tests_tests}
kit=$(dirname "$(rt doc)")
[ -x "$tests" ] || { echo "no program $tests: run rt test in crates/buffer_tests, or name it in TESTS" >&2; exit 1; }
work=$(mktemp -d)
trap 'rm -rf "$work"' EXIT
cc -O2 -shared -fPIC -o "$work/refused.so" "$here/tools/refused.c"
# refuses in the tests' processes alone, and not where they are listed
cat >"$work/program" <<END
#!/bin/sh
[ "\$1" = --list ] && exec "$tests" "\$@"
LD_PRELOAD=$work/refused.so exec "$tests" "\$@" 3>>"$work/made"
END
chmod +x "$work/program"
# ran NUMBER: runs the tests with that allocation refused in each
ran() { : >"$work/made"; REFUSED=$1 "$kit/bin/rattle-test" --seconds 300 --filter "$word" "$work/program" >"$work/log" 2>&1; }
ran 0 || { cat "$work/log" >&2; exit 1; }
made=$(sort -n "$work/made" | tail -1)
[ "$last" -gt 0 ] && [ "$last" -lt "$made" ] || last=$made
number=$first tried=0 passed=0
while [ "$number" -le "$last" ]; do
    tried=$((tried + 1))
    if ran "$number"; then passed=$((passed + 1)); else echo "allocation $number:" && grep -A2 FAILED "$work/log"; fi
    number=$((number + 1))
done
echo "$tried of $made allocations refused in turn, from $first on: $passed runs passed"
[ "$passed" = "$tried" ]
