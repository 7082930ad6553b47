# `make` alone lists the targets.
.PHONY: help run test check compare bench format tables frames staticlib bindings

help:
	@echo 'make run       build the program quantize and run it on the recorded frames; it ends with how many there were'
	@echo 'make test      the gate: format, every proof, must-fail edit, test and program, then the Rust comparisons on what was proved'
	@echo 'make check     prove what changed since the last time, and run the programs: the quick loop'
	@echo 'make staticlib the library for C and Rust: crates/sns_c/out/libsns_c.a, with include/lc3_sns.h'
	@echo 'make bindings  the library called from C and from bindings/rust (see tests/bindings.sh)'
	@echo 'make compare   the port beside the Rust, bit for bit: encoder, numbering, decoder, shaping; and refusals by the table'
	@echo 'make bench     encode, pack and unpack timed beside the Rust, then decode, interpolate and shape; BEFORE=COMMIT adds the calls of that commit but pack'
	@echo 'make format    lay out every Rattle and antt file'
	@echo 'make tables    make the recorded tables anew from the Rust source (see tests/tables/record.sh)'
	@echo 'make frames    make the recorded frames and answers anew from the Rust (see tests/frames/README.md)'

# A line a record, as crates/quantize/src/main.rt says. The last records are damaged on purpose, so that refusals are seen.
run: kit
	@mkdir -p target
	@echo 'proving and building quantize: some minutes the first time, then seconds'
	@cd crates/quantize && rt run <stdin >../../target/quantize.txt 2>../../target/run.log || { tail -n 20 ../../target/run.log; exit 1; }
	@echo 'low row, high row, shape, gain, sign A, sign B, joint index, index A, index B | the sixteen factors; the last records:'
	@tail -n 14 target/quantize.txt
	@echo 'every line: target/quantize.txt'

test: kit
	sh tests/gate.sh

check: kit
	rt all test

compare: kit
	tests/rust/beside.sh stage1_bench tests/rust/stage1.rs
	tests/rust/beside.sh sns_c tests/rust/quant.rs tests/rust/numbering.rs tests/rust/decoder.rs tests/rust/refusals.rs tests/rust/differences.rs

bench: kit
	bench/run.sh sns_c bench/quant.rs 'encode, scale 64'
	bench/run.sh sns_c bench/numbering.rs 'unpack (10,10)' 'unpack (6,1)' 'unpack (16,8)' 'unpack (16,6)'
	bench/run.sh sns_c bench/decoder.rs decode 'interpolate, 64 bands' 'shape, 48 kHz, 10 ms'

staticlib: kit
	sh tests/archive.sh sns_c

bindings: kit
	sh tests/bindings.sh

format: kit
	for crate in crates/*/; do (cd "$$crate" && rt fmt) || exit 1; done

tables: kit
	sh tests/tables/record.sh

frames: kit
	sh tests/frames/record.sh

.PHONY: kit
kit:
	@command -v rt >/dev/null || { echo 'The Rattle kit is missing: put its bin folder (the one that holds rt) on the PATH.'; exit 1; }
