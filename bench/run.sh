#!/bin/sh
# bench/run.sh CRATE DRIVER.rs LIST..: times the port beside the Rust (see bench/timing.rs), and counts the instructions of a
# call on each named list of inputs where valgrind is at hand. `bench/run.sh stage1_bench bench/stage1.rs 'stage 1, scale 64'`
# is stage 1. With BEFORE=COMMIT the calls of that commit stand beside both (but pack).
set -eu
cd "$(dirname "$0")/.."
crate=$1 driver=$2
shift 2
tests/rust/beside.sh "$crate" "$driver"
program=target/rust/$(echo "${driver%.rs}" | tr / -)
[ -x "$program" ] || exit 0
command -v valgrind >/dev/null || { echo "no instruction count: valgrind is missing (Debian package valgrind)"; exit 0; }

# instructions of the program with 2000 calls of a side on a list, or with none where there is no such side
instructions() {
    valgrind --tool=callgrind --callgrind-out-file=/dev/null "$program" count "$1" "$2" 2>&1 | sed -n 's/.*Collected : //p'
}
for list in "$@"; do
    none=$(instructions "$list" none)
    printf 'instructions a call, %s:' "$list"
    for side in before ours 'the patched Rust' 'the Rust'; do
        each=$((($(instructions "$list" "$side") - none) / 2000))
        [ $each = 0 ] || printf ' %s %s;' "$side" $each
    done
    echo
done
