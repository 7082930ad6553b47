#!/bin/sh
# bench/before.sh COMMIT ARCHIVE: the public archive as an earlier commit has it, proved and built in a clone outside this checkout
# (`rt ci` wants no other crates.txt below its own), and kept in target/before as libbefore.a, each public name with `before_` in
# front, so that one program can link it beside ARCHIVE, today's. In both every function is moved to a multiple of 64: where the
# linker happens to put a function changes its time by up to a third. The commit's own text must suit the kit that is at hand.
set -eu
cd "$(dirname "$0")/.."
commit=$(git rev-parse --verify -q "$1^{commit}") || { echo "bench: there is no commit $1" >&2; exit 1; }
command -v objcopy >/dev/null || { echo "bench: objcopy is missing (Debian package binutils)" >&2; exit 1; }
objcopy --set-section-alignment '.text.*=64' "$2"
[ "$(cat target/before/commit 2>/dev/null)" != "$commit" ] || exit 0
rm -rf target/before
mkdir -p target/before
clone=$(mktemp -d)
trap 'rm -rf "$clone"' EXIT
git clone -q . "$clone/src"
git -C "$clone/src" checkout -q "$commit"
echo "before: proving and building $1, some minutes"
(cd "$clone/src/crates/sns_c" && rt lib --cpu x86-64) >target/before/log 2>&1 || { tail -5 target/before/log >&2; exit 1; }
archive=$clone/src/crates/sns_c/out/libsns_c.a
# shellcheck disable=SC2046
objcopy --set-section-alignment '.text.*=64' \
    $(nm -g --defined-only "$archive" | sed -n 's/.* T \(.*\)/--redefine-sym \1=before_\1/p') "$archive" target/before/libbefore.a
echo "$commit" >target/before/commit
