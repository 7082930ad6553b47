#!/bin/sh
# Builds the archive and runs its callers against it: the tests of bindings/rust, and a C program. With --made, as in the gate,
# it takes the archive that is there, if there is one, and where a compiler is missing it says so and goes on, but with CI=true.
set -e
cd "$(dirname "$0")/.."
processor=$(uname -m)
if [ "$processor" != x86_64 ]; then
    echo "bindings: skipped. The archive is x86-64 code, and this processor ($processor) can't run it."
    exit 0
fi
for tool in rt cc cargo; do
    command -v $tool >/dev/null && continue
    echo "bindings: not run. $tool is missing (rt: the Rattle kit; cc: Debian's gcc; cargo: Debian's cargo)."
    [ "${1:-}" = --made ] && [ "${CI:-}" != true ] && exit 0
    exit 1
done
archive=crates/sns_c/out/libsns_c.a
if [ "${1:-}" != --made ] || [ ! -f $archive ]; then sh tests/archive.sh sns_c; fi
made=$(mktemp -d)
trap 'rm -rf "$made"' EXIT
cc -std=c11 -Wall -Wextra -Werror -Iinclude tests/c/calls.c $archive -lm -o "$made/calls"
"$made/calls"
CARGO_TARGET_DIR="$made/rust" cargo test --offline --manifest-path bindings/rust/Cargo.toml
