//! The smallest inputs of docs/DIFFERENCES.md: what the Rust does with each, and what the port does. Either side doing something
//! else than the page says fails it.
mod calls;
mod inputs;
mod reference;

use inputs::CORNERS;
use lc3::decoder::side_info::SnsVq;
use lc3::encoder::spectral_noise_shaping::SpectralNoiseShaping;
use lc3::tables::spec_noise_shape_quant_tables::{HFCB, LFCB};
use lc3_sns::{raw, Fields};
use reference::{bands, pack, run_quant, run_quant_order_3, run_quant_order_5, run_quant_patched, run_quant_place_10, unpack_into, Quantized};
use std::panic::catch_unwind;

/// Prints the row, and answers whether it is as the page says.
fn row(what: &str, as_listed: bool) -> bool {
    println!("{what}: {}", if as_listed { "as listed" } else { "NOT AS LISTED" });
    as_listed
}

/// 3.0 at place 8 and zeros elsewhere: shape 0 wins on both sides, and the Rust has one of its two gains to give.
fn last_gain() -> bool {
    let x = std::array::from_fn(|n| if n == 8 { 3.0 } else { 0.0 });
    let (rust, right) = (run_quant(&x), run_quant_patched(&x));
    let what = format!("3.0 at place 8: shape and gain: the Rust {:?}, here {:?}", &rust.numbers[2..4], &right.numbers[2..4]);
    row(&what, rust.numbers[2..4] == [0, 0] && right.numbers[2..4] == [0, 1] && calls::quant::ours(&x) == calls::quant::patched(&x))
}

/// Sixteen zeros: shape 1 with gain 0 on both sides, and the Rust seeks its pulses with another place's pair.
fn carried_pair() -> bool {
    let x = [0.0; 16];
    let (rust, right) = (run_quant(&x), run_quant_patched(&x));
    let what = format!("sixteen zeros: shape, gain and index A: the Rust {:?}, here {:?}", seen(&rust), seen(&right));
    let order_5_alone = rust == run_quant_order_3(&x);
    row(&what, order_5_alone && seen(&rust) == [1, 0, 605842] && seen(&right) == [1, 0, 605778] && calls::quant::ours(&x) == calls::quant::patched(&x))
}

/// 1.0 at place 0: every number is the Rust's, and 13 of the sixteen factors have other last bits. Sixteen zeros, where order 5 changes the
/// pulses too: 12 of them beside the copy with the patches of orders 3 and 5.
fn last_bits() -> bool {
    let differ = |a: &Quantized, b: &Quantized| a.factors.iter().zip(&b.factors).filter(|(x, y)| x.to_bits() != y.to_bits()).count();
    let (one, zeros) = (std::array::from_fn(|n| if n == 0 { 1.0 } else { 0.0 }), [0.0; 16]);
    let (rust, right) = (run_quant(&one), run_quant_patched(&one));
    let beside_orders_3_and_5 = differ(&run_quant_order_5(&zeros), &run_quant_patched(&zeros));
    let what = format!("1.0 at place 0: the Rust's numbers, and other last bits in {} factors; sixteen zeros: in {beside_orders_3_and_5}", differ(&rust, &right));
    let as_listed = right.has_other_last_bits(&rust) && differ(&rust, &right) == 13 && beside_orders_3_and_5 == 12;
    row(&what, as_listed && [one, zeros].iter().all(|x| calls::quant::ours(x) == calls::quant::patched(x)))
}

fn seen(q: &Quantized) -> [i64; 3] {
    [q.numbers[2], q.numbers[3], q.numbers[7]]
}

fn no_high_target() -> bool {
    CORNERS.iter().filter(|(name, _)| name.starts_with("no target")).all(|(name, bits)| {
        let x = bits.map(f32::from_bits);
        let (rust, right) = (run_quant(&x), run_quant_place_10(&x));
        let what = format!("{name}: shape, gain, signs, joint index: the Rust {:?}, here {:?}", &rust.numbers[2..7], &right.numbers[2..7]);
        row(&what, rust != right && calls::quant::ours(&x) == calls::quant::place_10(&x))
    })
}

/// The Rust takes each vector for one of a single pulse or of none, and numbers it.
fn vectors() -> bool {
    let cut_to_an_i8 = [257, 0, 0, 0, 0, 0];
    let refused = |v: &[i32]| raw::pack(6, 1, v).number == 6;
    row("no pulse: the Rust answers the least i32 as lead sign, here no. 6", pack(&[0; 6]) == (0, i32::MIN) && refused(&[0; 6]))
        & row("257 at place 0: the Rust numbers it as 1, here no. 6", pack(&cut_to_an_i8) == pack(&[1, 0, 0, 0, 0, 0]) && refused(&cut_to_an_i8))
}

/// Factors 0, 1, .. 15 as 60 bands: the decoder's rule at both ends, and the Rust's own encoder.
fn sixty_bands() -> bool {
    let factors: [f32; 16] = std::array::from_fn(|n| n as f32);
    let (mut rust, mut here) = ([0.0; 64], [0.0; 60]);
    SpectralNoiseShaping::apply_scale_factor_interpolation(&factors, &mut rust);
    let wide = rust;
    SpectralNoiseShaping::reduce_scale_factors_for_narrow_band(60, &mut rust);
    raw::interpolate(&factors, 60, &mut here);
    let every_later_band_one_value = rust[4..60].iter().all(|x| *x == rust[4]);
    row("60 bands at the encoder: the Rust has one value from band 4 on, here band i + 4", every_later_band_one_value && here[4..60] == wide[8..64])
}

/// Bad input: the Rust panics, or answers.
fn bad_input() -> bool {
    std::panic::set_hook(Box::new(|_| ()));
    let mut vector = [7; 6];
    unpack_into(6, 1, 0, 6, &mut vector);
    let mut held = [7; 6];
    let index = row("(6,1) index 6: the Rust answers a vector without a pulse, here no. 5", vector == [0; 6] && raw::unpack(6, 1, 0, 6, &mut held).number == 5 && held == [7; 6]);
    let gain = SnsVq { ind_lf: 0, ind_hf: 0, ls_inda: 0, ls_indb: 0, idx_a: 0, idx_b: 0, submode_lsb: 0, submode_msb: 0, g_ind: 2 };
    let panics = catch_unwind(|| bands(4, true, &gain)).is_err();
    let refused = raw::decode(&Fields { gain: 2, ..Fields::default() }, &mut [0.0; 16]).number == 3;
    let nan = run_quant(&[f32::NAN; 16]).factors.iter().all(|x| !x.is_nan());
    index
        & row("gain 2 in shape 0: the Rust panics, here no. 3", panics && refused)
        & row("sixteen NaN: the Rust answers numbers, here no. 7", nan && raw::encode(&[f32::NAN; 16], &mut [0.0; 16]).number == 7)
}

/// The residual is zero: the projection is dropped by its rule here, and is cast from NaN to 0 there.
fn zero_residual() -> bool {
    let x = std::array::from_fn(|n| if n < 8 { LFCB[0][n] } else { HFCB[0][n - 8] });
    row("rows 0 and 0 themselves: both answer alike", calls::quant::ours(&x) == calls::quant::rust(&x))
}

fn main() {
    let listed = last_gain() & carried_pair() & last_bits() & no_high_target() & vectors() & sixty_bands() & bad_input() & zero_residual();
    std::process::exit(!listed as i32)
}
