//! The port's encoder beside `run_quant` of the Rust with the patches of the orders, every field and the sixteen factors; what each
//! order changes, from patched copy to patched copy, down to the Rust as it is; the factors of both ends; the first of two best
//! candidates; a corner that is what its name says; and interpolation to 64 bands.
mod calls;
mod inputs;
mod reference;
mod report;

use calls::{bands_64, ends, quant};
use inputs::{corner, Factors, BELOW_ZERO, TIE};
use lc3::encoder::spectral_noise_shaping::SpectralNoiseShaping;
use lc3::tables::spec_noise_shape_quant_tables::D;
use lc3_patched::encoder::spectral_noise_shaping::SpectralNoiseShaping as Patched;
use reference::{run_quant_later, run_quant_order_3, run_quant_order_5, run_quant_patched};
use report::Kind;

/// What the pulses are sought for: stage 1's residual, turned by D.
fn target(x: &Factors) -> Factors {
    let (mut st1, mut r1) = ([0.0; 16], [0.0; 16]);
    SpectralNoiseShaping::sns_quant_stage1(x, &mut st1, &mut r1);
    std::array::from_fn(|n| r1.iter().zip(&D).fold(0.0, |t, (r, row)| t + r * row[n]))
}

/// The target is zero from place 10 on: there the Rust leaves set B empty, and is not followed.
fn no_high_target(x: &Factors) -> bool {
    target(x)[10..].iter().all(|t| *t == 0.0)
}

/// Two candidates are the best: the copy that takes the later one answers otherwise, and the port takes the first.
fn first_of_two() -> usize {
    let x = corner(TIE);
    let (first, later) = (run_quant_patched(&x), run_quant_later(&x));
    let right = first.numbers != later.numbers && quant::ours(&x) == quant::patched(&x);
    let [first, later] = [first, later].map(|q| format!("shape {} with gain {}", q.numbers[2], q.numbers[3]));
    println!("{TIE}: {first} and {later}; the port takes the {}\n", if right { "first" } else { "WRONG ONE, OR THERE IS NO TIE" });
    !right as usize
}

/// The corner is what its name says: steps 1 to 5 of the patched Rust's stage 2, by its own `add_unit_pulse`.
fn starts_below_zero() -> usize {
    let a = target(&corner(BELOW_ZERO)).map(f32::abs);
    let factor = 5.0 / a.iter().fold(0.0, |sum, a| sum + a);
    let mut y = a.map(|a| (a * factor).floor() as i32);
    let terms = |n: usize, y: &[i32; 16]| (y[n] as f32 * a[n], (y[n] * y[n]) as f32);
    let (mut c, mut e) = (0..16).fold((0.0, 0.0), |(c, e), n| (c + terms(n, &y).0, e + terms(n, &y).1));
    let k = y.iter().sum::<i32>() as usize;
    Patched::add_unit_pulse(&a, 16, k, 6, &mut y, &mut c, &mut e);
    Patched::add_unit_pulse(&a, 16, 6, 8, &mut y, &mut c, &mut e);
    let (c, e) = (10..16).fold((c, e), |(c, e), n| (c - terms(n, &y).0, e - terms(n, &y).1));
    let right = y[..10] == [0; 10] && e == 0.0 && c < 0.0;
    println!("{BELOW_ZERO}: correlation {c}, energy {e}{}\n", if right { "" } else { ": NOT AS NAMED" });
    !right as usize
}

fn main() {
    let high = Kind { name: "with no target from 10 on", holds: no_high_target, instead: Some(quant::place_10) };
    let formula = Kind {
        name: "with the same numbers, factors to 2^-19",
        holds: |x| run_quant_patched(x).has_other_last_bits(&run_quant_order_5(x)),
        instead: Some(quant::patched),
    };
    let handed = Kind {
        name: "with another shape than 3, before or after",
        holds: |x| !(run_quant_order_5(x).has_first_search() && run_quant_order_3(x).has_first_search()),
        instead: Some(quant::order_5),
    };
    let last = Kind { name: "with a last gain", holds: |x| run_quant_order_3(x).has_last_gain(), instead: Some(quant::order_3) };
    let apart = Kind { name: "whose ends differ without order 9", holds: ends::differed, instead: None };
    let wide = Kind { name: "with a step over 64", holds: |x| x.windows(2).any(|w| (w[1] - w[0]).abs() > 64.0), instead: None };
    report::end(
        report::compare("encoder, the Rust with the orders' patches", quant::ours, quant::patched, &high)
            + report::compare("order 9, the Rust with and without", quant::patched, quant::order_5, &formula)
            + report::compare("order 5, the Rust with and without", quant::order_5, quant::order_3, &handed)
            + report::compare("order 3, the Rust with and without", quant::order_3, quant::rust, &last)
            + report::compare("both ends, encode and decode of its answer", ends::encoded, ends::decoded, &apart)
            + report::compare("both ends of the Rust, with the patches", ends::rust_encoded, ends::rust_decoded, &apart)
            + first_of_two()
            + starts_below_zero()
            + report::compare("interpolation", bands_64::ours, bands_64::rust, &wide),
    )
}
