#!/bin/sh
# Makes crates/tables_run/stdout anew from the Rust's own tables. Run it in the repository's root.
# The Rust's source is found at ../shared/docs/src, or where LC3_SRC says. With --check it writes nothing and compares.
set -eu
src=${LC3_SRC:-../shared/docs/src}
[ -f "$src/src/tables/band_index_tables.rs" ] || { echo "tests/tables: no Rust source at $src: set LC3_SRC to the folder that holds its src/"; exit 1; }
command -v rustc >/dev/null || { echo "tests/tables: rustc is missing (Debian package rustc)"; exit 1; }
build=target/rust-tables
mkdir -p "$build"
cp "$src/src/tables/band_index_tables.rs" "$src/src/tables/spec_noise_shape_quant_tables.rs" tests/tables/print_tables.rs "$build/"
rustc --edition 2021 -A warnings -o "$build/print_tables" "$build/print_tables.rs"
if [ "${1:-}" = --check ]; then
    "$build/print_tables" | cmp - crates/tables_run/stdout && echo "tables: equal to the Rust's, bit for bit"
else
    "$build/print_tables" >crates/tables_run/stdout
fi
