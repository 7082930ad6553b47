#!/bin/sh
# bench/native.sh CRATE OUT.a: the archive of a proved static library (tests/archive.sh), for timing and for the comparison with
# the Rust.
set -eu
cd "$(dirname "$0")/.."
sh tests/archive.sh "$1"
mkdir -p "$(dirname "$2")"
cp "crates/$1/out/lib$1.a" "$2"
