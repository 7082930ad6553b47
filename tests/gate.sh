#!/bin/sh
# The gate. `rt ci` comes first, over the checkout as it stands; the recorded files, the comparison with the Rust and the archive's
# callers then run on what it has proved, so that nothing is proved twice, and what is compared is what was proved. A must-fail
# edit that cannot be applied is a failure here: rt ci counts it as bad and passes. rt ci's own last line, 'N passed, 0 failed', is
# held back until all of that has passed: a failure anywhere is an exit status and no such line.
set -eu
cd "$(dirname "$0")/.."
said=$(mktemp)
trap 'rm -f "$said" "$said.status"' EXIT
{ rt ci 2>&1 && status=0 || status=$?; echo "$status" >"$said.status"; } | tee "$said" | sed -u '$d'
status=$(cat "$said.status")
[ "$status" = 0 ] || { tail -n 1 "$said"; exit "$status"; }
if grep -qE '^rt: ok.*, [0-9]*[1-9][0-9]* bad|BAD EDIT' "$said"; then
    echo 'gate: rt ci found bad must-fail edits, as its line above says: mend them'
    exit 1
fi
OVER_CI=1
export OVER_CI
sh tests/rust_at_hand.sh sh tests/tables/record.sh --check
sh tests/rust_at_hand.sh sh tests/frames/record.sh --check
COMPARE=short sh tests/rust_at_hand.sh make --no-print-directory compare
sh tests/bindings.sh --made
tail -n 1 "$said"
