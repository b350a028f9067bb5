#!/usr/bin/env bash
# Proves and builds the archives that firmware and the tests link, and puts them where rust/ and oracle/ look for them:
# target/staticlib/libcontroller.a, of crate controller_c, and target/staticlib/libreplay.a, of crate replay_c.
cd "$(dirname "$0")/.." || exit 1
mkdir -p target/staticlib || exit 1
for name in controller replay; do
    (cd "crates/${name}_c" && rt lib) || exit 1
    made=crates/${name}_c/out/lib${name}_c.a
    put=target/staticlib/lib$name.a
    # An archive that has not changed stays as it is, so that what links it is not built anew.
    cmp -s "$made" "$put" || cp "$made" "$put" || exit 1
done
