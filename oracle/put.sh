#!/bin/sh
# Puts the four files under test in place, out of docs/src of this repository (or out of the folder that
# GIVEN names), and checks byte for byte that they are the given ones.
set -e
cd "$(dirname "$0")"
GIVEN=${GIVEN:-../docs/src}
put() {
    cmp -s "$GIVEN/$1" "oracle/src/$2" || cp "$GIVEN/$1" "oracle/src/$2"
    cmp "$GIVEN/$1" "oracle/src/$2"
    echo "unchanged: $2"
}
mkdir -p oracle/src/dm/clusters/time_sync
put rs-matter-dm/src/clusters/time_sync.rs dm/clusters/time_sync.rs
put rs-matter-dm/src/clusters/time_sync/client.rs dm/clusters/time_sync/client.rs
put rs-matter-node-core/src/rtc.rs rtc.rs
put rs-matter-dm/src/fmt.rs fmt.rs
