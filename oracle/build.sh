#!/bin/sh
# Puts the files under test in place, checks them, and builds the oracle, which needs no archive, as run.sh does.
set -e
cd "$(dirname "$0")"
./put.sh
cargo build --offline --release --quiet --package oracle --features parts
