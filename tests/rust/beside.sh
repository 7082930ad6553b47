#!/bin/sh
# tests/rust/beside.sh CRATE DRIVER.rs..: builds the Rust, the archive of CRATE and each driver, which links both, all in
# target/rust, and runs the drivers one after another. A driver of `sns_c` calls the port through bindings/rust. With BEFORE=COMMIT
# it can call the public archive of that commit too (bench/before.sh).
set -eu
cd "$(dirname "$0")/../.."
crate=$1
shift
if [ "$(uname -m)" != x86_64 ]; then
    echo "$*: skipped. The archive is x86-64 code, and this processor ($(uname -m)) can't run it."
    exit 0
fi
tests/rust/build.sh
bench/native.sh "$crate" "target/rust/lib$crate.a"
flags='--edition 2021 -C opt-level=3 -L target/rust'
copies="--extern lc3 $(cat target/rust/copies)"
# shellcheck disable=SC2086
rustc $flags --crate-type rlib --crate-name lc3_sns --out-dir target/rust bindings/rust/src/lib.rs
if [ -n "${BEFORE:-}" ]; then
    bench/before.sh "$BEFORE" "target/rust/lib$crate.a"
    flags="$flags --cfg before -L target/before -l static=before"
fi
for driver in "$@"; do
    program=target/rust/$(echo "${driver%.rs}" | tr / -)
    # shellcheck disable=SC2086
    rustc $flags $copies --extern lc3_sns -l "static=$crate" -o "$program" "$driver"
    "$program"
done
