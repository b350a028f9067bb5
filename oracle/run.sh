#!/bin/sh
# Puts the files under test in place and checks them, builds, runs the smoke test of the oracle, runs the Rust's
# handler over the port's list store, and runs the port and the oracle side by side. Arguments are handed to
# `differ`, for example `--answers 100000000 --seed 2`. The archives libcontroller.a and libreplay.a are looked for
# in the folder that TIMESYNC_LIB_DIR names, or else in target/staticlib at the top of the repository.
set -e
here=$(cd "$(dirname "$0")" && pwd)
lib=${TIMESYNC_LIB_DIR:-$here/../target/staticlib}
for archive in libcontroller.a libreplay.a; do
    if [ ! -f "$lib/$archive" ]; then
        echo "there is no $lib/$archive" >&2
        exit 1
    fi
done
TIMESYNC_LIB_DIR=$(cd "$lib" && pwd)
export TIMESYNC_LIB_DIR
cd "$here"
./put.sh
cargo build --offline --release
./target/release/oracle < smoke.in > target/smoke.got
diff smoke.want target/smoke.got
echo "smoke: $(wc -l < target/smoke.got) answers as wanted"
./target/release/host
exec ./target/release/differ "$@"
