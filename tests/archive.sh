#!/bin/sh
# tests/archive.sh CRATE: proves a static library and leaves its archive as crates/CRATE/out/libCRATE.a, for every x86-64 processor
# (left to itself the kit takes x86-64-v2, which not every one has). With OVER_CI set, as in the
# gate, it is built over the libraries that `rt ci` has just proved and left in crates/*/out/rlib. The kit's other commands make
# their own in the place of those, so a checkout whose checks had left some takes them (a library of theirs has a stamp).
set -eu
cd "$(dirname "$0")/.."
crate=$1
command -v rt >/dev/null || { echo "tests: rt is missing: put the Rattle kit's bin folder on the PATH" >&2; exit 1; }
[ -d "crates/$crate" ] || { echo "tests: there is no crate $crate" >&2; exit 1; }
mkdir -p target/log
log=$PWD/target/log/$crate-archive
cd "crates/$crate"
mkdir -p out
rm -f "out/lib$crate.a"

# the names after the colon of a crate's line
uses() {
    sed -n "s/^$1\( [^:]*\)\{0,1\}://p" ../../crates.txt
}
own=''
left=$(uses "$crate")
while [ -n "$left" ]; do
    more=''
    for name in $left; do
        case " $own " in *" $name "*) continue ;; esac
        own="$own $name"
        more="$more $(uses "$name")"
    done
    left=$(echo $more)
done
is_over_ci=${OVER_CI:-}
for name in $own; do
    [ -f "../$name/out/rlib/$name.rlib/format" ] && [ ! -f "../$name/out/rlib/stamp" ] || is_over_ci=''
done
if [ -z "$is_over_ci" ]; then
    rt lib --cpu x86-64 >"$log" 2>&1 || { tail -5 "$log" >&2; exit 1; }
    exit
fi
kit=$(dirname "$(rt doc)")
words=''
for name in $(uses "$crate"); do words="$words --extern $name=../$name/out/rlib/$name.rlib"; done
for name in $own; do words="$words -L dependency=../$name/out/rlib"; done
# shellcheck disable=SC2086
"$kit/bin/rattle" build --crate-name "$crate" src/lib.rt --extern "std=$kit/rlibs/std.rlib" -L "dependency=$kit/rlibs" $words \
    --antt-project "$kit/rattle/logic/antt-project.json" --logic-built "$kit/logic_built" --links "$crate=" \
    --crate-type staticlib --cpu x86-64 --toolchain "$kit/toolchain" --backend llvm -o "out/lib$crate.a" >"$log" 2>&1 ||
    { tail -5 "$log" >&2; exit 1; }
