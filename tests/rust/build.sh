#!/bin/sh
# Builds the Rust, lc3-codec 0.2.0, in target/rust, for the comparison and for timing:
#   liblc3.rlib           as it is
#   liblc3_order_3.rlib   with the patch of order 3, and
#   liblc3_order_5.rlib   with those of orders 3 and 5: they show what each order changes
#   liblc3_patched.rlib   with the patches of all orders, 3, 5 and 9: what the encoder is compared with
#   liblc3_place_10.rlib  with patches/place_10.patch besides: set B's pulse starts where document 01 has it (docs/DIFFERENCES.md)
#   liblc3_later.rlib     with the orders' and patches/later_of_a_tie.patch: it shows which inputs have two best candidates
# No file of it is kept here: they are copied from LC3_SRC (a path seen from the repository's root). In every copy the word `pub`
# stands before the private functions and structs that must be reached. What it takes from other crates stands in stand_ins/.
# target/rust/copies has the flags of rustc by which a driver names the copies.
# Everything is compiled with the same flags: -C opt-level=3 and no target-cpu.
set -eu
cd "$(dirname "$0")/../.."
src=${LC3_SRC:-../shared/docs/src}
out=target/rust
patches=tests/rust/patches
reached='run_quant|sns_quant_stage1|add_unit_pulse|mvpq_enum|apply_scale_factor_interpolation|reduce_scale_factors_for_narrow_band|mpvq_deenum'

for tool in rustc patch; do
    command -v $tool >/dev/null || { echo "tests/rust: $tool is missing (Debian package $tool)" >&2; exit 1; }
done
[ -f "$src/src/encoder/spectral_noise_shaping.rs" ] || {
    echo "tests/rust: no Rust source at $src: unpack lc3-codec 0.2.0 and set LC3_SRC to the folder that holds its src/" >&2
    exit 1
}

rm -rf "$out"
for f in common/complex common/config tables/band_index_tables tables/spec_noise_shape_quant_tables \
    encoder/spectral_noise_shaping decoder/side_info decoder/spectral_noise_shaping; do
    mkdir -p "$out/src/$(dirname $f)"
    sed -E -e "s/^( *)fn ($reached)\(/\1pub fn \2(/" -e 's/^struct /pub struct /' "$src/src/$f.rs" >"$out/src/$f.rs"
done
cp tests/rust/lc3.rs "$out/src/lib.rs"

# patched FROM TO PATCH..: a copy with the patches in; one that does not fit fails it
patched() {
    cp -r "$out/$1" "$out/$2"
    to=$2
    shift 2
    for p in "$@"; do
        patch -s --fuzz=0 -p1 -d "$out/$to" <"$p" || { echo "tests/rust: $p does not fit the Rust source" >&2; exit 1; }
    done
}
patched src order_3 $patches/order_3.patch
patched order_3 order_5 $patches/order_5.patch
patched order_5 patched $patches/order_9.patch
patched patched place_10 $patches/place_10.patch
patched patched later $patches/later_of_a_tie.patch

flags="--edition 2021 -C opt-level=3 --cap-lints allow --crate-type rlib --out-dir $out -L $out"
for name in itertools num_traits fast_math; do
    # shellcheck disable=SC2086
    rustc $flags --crate-name $name tests/rust/stand_ins/$name.rs
done
externs='--extern itertools --extern num_traits --extern fast_math'
# shellcheck disable=SC2086
{
    rustc $flags $externs --crate-name lc3 "$out/src/lib.rs"
    for copy in order_3 order_5 patched place_10 later; do
        rustc $flags $externs --crate-name lc3_$copy "$out/$copy/lib.rs"
        echo "--extern lc3_$copy"
    done >"$out/copies"
}
echo "the Rust: $out/liblc3.rlib, and liblc3_patched.rlib with the patches of the orders"
