#!/bin/sh
# Checks the headers, the example and the crate against libcontroller.a and libreplay.a, which must be there already: in the directory that
# TIMESYNC_LIB_DIR names, or else in ../target/staticlib. Prints a line for each part and the stack that each call takes, and ends with a
# status other than 0 where one fails.
cd "$(dirname "$0")" || exit 2
lib=${TIMESYNC_LIB_DIR:-$(pwd)/../target/staticlib}
include=$(pwd)/../include
examples=$(pwd)/../examples/c
CC=${CC:-cc}
CXX=${CXX:-c++}
c99="-std=c99 -Wall -Wextra -Werror -pedantic"
work=$(mktemp -d) || exit 2
trap 'rm -rf "$work"' EXIT
export TIMESYNC_LIB_DIR="$lib"
failed=0

# part NAME COMMAND...: its output is shown only where it fails
part() {
    name=$1
    shift
    if "$@" >"$work/log" 2>&1; then
        echo "ok      $name"
    else
        echo "FAILED  $name"
        sed 's/^/    /' "$work/log"
        failed=1
    fi
}

run_c() {
    "$work/main" >"$work/said" || { cat "$work/said"; return 1; }
    printf '%s\n' 'zone Europe/Berlin' 'local time 1044000000000' \
        'moment 1036800000000' 'moment 1728000000000' 'moment 2592000000000' 'moment 3456000000000' 'as expected' >"$work/due"
    diff "$work/due" "$work/said"
}

run_example() {
    "$work/controller" >"$work/said" && diff "$examples/controller.txt" "$work/said"
}

# The header names the functions that the archive needs from elsewhere
needs() {
    [ "$(nm -u "$lib/libcontroller.a" | sed -n 's/^ *U //p' | sort -u | xargs)" = "memcpy memset" ]
}

# The names that an archive exports, without their prefix
exported() {
    nm -g --defined-only "$1" | sed -n 's/.* T timesync_//p' | sort
}

# libreplay.a has the replay alone, and firmware does not carry it
one_replay() {
    [ "$(exported "$lib/libreplay.a")" = replay ] && ! exported "$lib/libcontroller.a" | grep -x replay
}

run_stack() {
    "$work/stack" >"$work/stack.txt"
}

# Every entry point was measured
measured_all() {
    { exported "$lib/libcontroller.a"; exported "$lib/libreplay.a"; } | sort >"$work/due"
    sed -n 's/^ *[0-9][0-9]*  \([a-z_]*\).*/\1/p' "$work/stack.txt" | sort | diff "$work/due" -
}

# docs/PERFORMANCE.md names every call, and no call takes more stack than it says there: a row has names, their bytes and their bound
told_stack() {
    sed -n '/^## Stack$/,/^## /s/^| \(`.*`\) | \([0-9,]*\) | .*/\2 \1/p' ../docs/PERFORMANCE.md | tr -d ',`' >"$work/told"
    awk 'FILENAME == ARGV[1] { for (i = 2; i <= NF; i++) told[$i] = $1; next }
         !($2 in told) { print $2 ": the table does not name it, it takes " $1; bad = 1 }
         $2 in told && $1 > told[$2] { print $2 ": the table says " told[$2] ", it takes " $1; bad = 1 }
         END { exit bad }' "$work/told" "$work/stack.txt"
}

# The header's two bounds are those that the calls are held to
told_bounds() {
    sed -n 's/^#define MOST_\(RECORD\|OTHER\) \([0-9]*\)u$/\2/p' tests/c/stack.c | xargs >"$work/due"
    sed -n 's/.* at most \([0-9]*\) bytes of stack, any other at most \([0-9]*\);.*/\1 \2/p' "$include/timesync.h" | diff "$work/due" -
}

# The crate cannot be built, and what cargo says has these words
told_why() {
    words=$1
    shift
    ! "$@" cargo build --offline --target-dir "$work/refused" >"$work/said" 2>&1 && cat "$work/said" && grep -q "$words" "$work/said"
}

for archive in libcontroller.a libreplay.a; do
    if [ ! -f "$lib/$archive" ]; then
        echo "FAILED  $archive is not in $lib"
        exit 1
    fi
done
part "the replay, in an archive of its own" one_replay
part "what the archive needs, as the header says" needs
for header in timesync.h timesync_replay.h; do
    part "$header, C99" "$CC" $c99 -fsyntax-only -x c "$include/$header"
    if command -v "$CXX" >/dev/null; then
        part "$header, C++" "$CXX" -std=c++11 -Wall -Wextra -Werror -pedantic -fsyntax-only -x c++ "$include/$header"
    fi
done
part "C program, compiled" "$CC" $c99 -O1 -I "$include" -I "$examples" tests/c/main.c "$lib/libcontroller.a" -o "$work/main"
part "C program, run" run_c
part "example, compiled" "$CC" $c99 -O1 -I "$include" "$examples/controller.c" "$lib/libcontroller.a" -o "$work/controller"
part "example, run" run_example
part "stack, compiled" "$CC" $c99 -O1 -I "$include" -I "$examples" tests/c/stack.c "$lib/libcontroller.a" "$lib/libreplay.a" -Wl,-z,now \
    -o "$work/stack"
part "stack of each call, within its bound" run_stack
sed 's/^/        /' "$work/stack.txt"
part "stack of every call" measured_all
part "stack, as the table says" told_stack
part "stack, as the header says" told_bounds
part "crate, built as firmware has it" cargo build --offline --quiet
part "crate, another target named" told_why "x86-64 Linux, and cannot be built for aarch64-unknown-linux-gnu" \
    env CARGO_BUILD_TARGET=aarch64-unknown-linux-gnu
part "crate, a missing archive named" told_why "there is no $work/libcontroller.a: build it with" env TIMESYNC_LIB_DIR="$work"
part "crate, tests" cargo test --offline --quiet --features replay
exit $failed
