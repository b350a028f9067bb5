#!/bin/sh
# Measures every call of libcontroller.a and of the Rust it was ported from, and prints the tables in Markdown: what the calls cost, and how
# large the code is. The archive must be there already: in the directory that TIMESYNC_LIB_DIR names, or else in ../../target/staticlib. Needs
# cargo, valgrind, size and nm.
set -e
cd "$(dirname "$0")"
TIMESYNC_LIB_DIR=${TIMESYNC_LIB_DIR:-$(pwd)/../../target/staticlib}
export TIMESYNC_LIB_DIR
if [ ! -f "$TIMESYNC_LIB_DIR/libcontroller.a" ]; then
    echo "libcontroller.a is not in $TIMESYNC_LIB_DIR" >&2
    exit 1
fi
work=$(mktemp -d)
trap 'rm -rf "$work"' EXIT
../../oracle/put.sh
cargo build --offline --release --quiet
bench=${CARGO_TARGET_DIR:-target}/release/bench

# Both sides say the same
"$bench" check >"$work/said"

# Time
"$bench" time >"$work/times"

# Instructions: only what runs in bench_measured is counted, and each run of it is dumped by itself, in the order of the names
valgrind --tool=callgrind --callgrind-out-file="$work/dump" --toggle-collect=bench_measured --dump-after=bench_measured \
    "$bench" count >"$work/names" 2>"$work/log" || { cat "$work/log" >&2; exit 1; }
n=0
while IFS= read -r name; do
    n=$((n + 1))
    printf '%s\t%s\n' "$name" "$(sed -n 's/^summary: //p' "$work/dump.$n")"
done <"$work/names" >"$work/counts"
if [ -e "$work/dump.$((n + 1))" ]; then
    echo "there are more dumps than operations" >&2
    exit 1
fi

"$bench" table "$work/times" "$work/counts"
./code.sh
