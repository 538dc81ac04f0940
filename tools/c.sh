#!/bin/bash
# Builds the C interface, and runs its examples in C and in Python, which have to print the same.
#
#     tools/c.sh          the header, the archive, a shared object, both examples
#     tools/c.sh --hard   and each call while each of its allocations fails in turn, both programs under valgrind and with
#                         the address sanitizer, 100,000 random calls from Python, and 1,000 random sessions beside
#                         `zedbuf replay`, if crates/zedbuf is built or PROGRAM names the program
#
# Wants gcc and python3, and for --hard valgrind. What is built lies in build/c.
set -euo pipefail

top=$(cd "$(dirname "$0")/.." && pwd)
kit=$(dirname "$(rt doc)")
build=$top/build/c
archive=$top/crates/zedbuf_c/out/libzedbuf_c.a
heap=$kit/c/liblibc_c.a

python3 "$top/tools/c_header.py" --check
(cd "$top/crates/zedbuf_c" && rt lib)
mkdir -p "$build"
flags=(-std=c11 -Wall -Wextra -Werror -O1 -g -I "$top/include")
gcc "${flags[@]}" "$top/examples/c/merge.c" "$archive" "$heap" -o "$build/merge"
gcc -shared -o "$build/libzedbuf.so" -Wl,--whole-archive "$archive" -Wl,--no-whole-archive "$heap"

"$build/merge" >"$build/merge.c.out"
ZEDBUF=$build/libzedbuf.so python3 "$top/examples/python/merge.py" >"$build/merge.python.out"
diff "$top/examples/c/merge.out" "$build/merge.c.out"
diff "$top/examples/c/merge.out" "$build/merge.python.out"
echo "c.sh: both examples print examples/c/merge.out"

if [ "${1-}" = --hard ]; then
    gcc "${flags[@]}" "$top/examples/c/refused.c" "$archive" "$heap" -Wl,--wrap=malloc,--wrap=realloc -o "$build/refused"
    "$build/refused"
    valgrind --quiet --leak-check=full --error-exitcode=1 "$build/merge" >/dev/null
    valgrind --quiet --leak-check=full --error-exitcode=1 "$build/refused" >/dev/null
    gcc "${flags[@]}" -fsanitize=address "$top/examples/c/merge.c" "$archive" "$heap" -o "$build/merge.asan"
    "$build/merge.asan" | diff "$top/examples/c/merge.out" -
    gcc "${flags[@]}" -fsanitize=address "$top/examples/c/refused.c" "$archive" "$heap" -Wl,--wrap=malloc,--wrap=realloc -o "$build/refused.asan"
    "$build/refused.asan" >/dev/null
    ZEDBUF=$build/libzedbuf.so python3 "$top/tools/c_random.py" 100000
    program=${PROGRAM:-$top/crates/zedbuf/out/zedbuf}
    if [ -x "$program" ]; then
        ZEDBUF=$build/libzedbuf.so python3 "$top/tools/c_sessions.py" "$program" 1000
    else
        echo "c.sh: no program $program, so sessions are not compared: name it in PROGRAM"
    fi
    echo "c.sh: no allocation that fails leaves a text changed, and valgrind and the sanitizer find nothing"
fi
