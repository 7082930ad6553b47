#!/bin/sh
# Makes standard input and expected output of quantize, answers_run and frames_run anew, and the expected output of decoder_run:
# the recorded frames of frames.txt, the drawn inputs of ../rust/inputs.rs and the corners of corners.rs, and what the Rust
# answers to them. Run it in the repository's root.
# The Rust's source is found at ../shared/docs/src, or where LC3_SRC says. With --check it writes nothing and compares.
set -eu
tests/rust/build.sh >/dev/null
program=target/rust/frames-expect
flags='--edition 2021 -C opt-level=3 -A warnings -L target/rust'
# shellcheck disable=SC2086
rustc $flags --extern lc3 $(cat target/rust/copies) -o "$program" tests/frames/expect.rs
[ "${1:-}" = --check ] || exec "$program" crates
made=target/rust/frames
rm -rf "$made"
"$program" "$made"
(cd "$made" && find . -type f) | while read -r file; do
    cmp "$made/$file" "crates/$file" || exit 1
done
echo "recorded frames and answers: equal to the Rust's"
