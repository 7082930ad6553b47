#!/bin/sh
# run_program.sh NAME [WORDS..]: runs a program that `rt run` built (crates/NAME/out/NAME, for x86-64) with this shell's standard
# input and output.
set -eu
cd "$(dirname "$0")/.."
name=$1
shift
program=crates/$name/out/$name
[ -x "$program" ] || { echo "tests: $program is missing: build it with rt run in crates/$name" >&2; exit 1; }
exec "$program" "$@"
