//! What decoder_run must write: the decoder's corners, each float by its bits. Bands of fields are the Rust decoder's own, bands
//! of factors the Rust's interpolation; the check of a factor and the reduction to 60 bands are written from document 01,
//! since the Rust has no function for the one and does the other inside its decoder.
use crate::inputs::Factors;
use crate::reference::{bands, limits, sns_vq};
use lc3::encoder::spectral_noise_shaping::SpectralNoiseShaping;

fn float(x: f32) -> String {
    if x.is_nan() { " nan".into() } else { format!(" {:08x}", x.to_bits()) }
}

fn line(what: &str, floats: &[f32]) -> String {
    format!("{what}{}\n", floats.iter().map(|x| float(*x)).collect::<String>())
}

fn check(x: f32) -> String {
    let answer = match x {
        x if !x.is_finite() => " no 7".into(),
        x if x.abs() > 64.0 => format!(" no 8{}", float(x)),
        x => format!(" taken{}", float(x)),
    };
    format!("check{}{answer}\n", float(x))
}

fn interpolated(factors: &Factors) -> String {
    let mut wide = [0.0; 64];
    SpectralNoiseShaping::apply_scale_factor_interpolation(factors, &mut wide);
    let narrow: Vec<f32> = (0..60).map(|i| if i < 4 { (wide[2 * i] + wide[2 * i + 1]) / 2.0 } else { wide[i + 4] }).collect();
    line("bands 64", &wide) + &line("bands 60", &narrow)
}

fn decoded([low, high, shape, gain, sign_a, a, sign_b, b]: [usize; 8]) -> String {
    let fields = sns_vq([low, high, shape, gain, sign_a, sign_b, a, b]);
    line("bands 64", &bands(4, true, &fields)) + &line("bands 60", &bands(0, false, &fields))
}

fn shaped(ten_ms: bool, gains: &[f32], mut lines: Vec<f32>) -> String {
    for (band, gain) in limits(0, ten_ms).windows(2).zip(gains) {
        lines[band[0]..band[1]].iter_mut().for_each(|x| *x *= gain);
    }
    line("lines", &lines)
}

pub fn decoder_run() -> String {
    let checks = [0x4280_0000, 0x4280_0001, 0x427f_ffff, 0xc280_0000, 0xc280_0001, 0, 0x8000_0000, 0x7f80_0000, 0xff80_0000, 0x7fc0_0000];
    let step = |at: usize| std::array::from_fn(|n| if n < at { 0.0 } else { 8.0 });
    let fields = [
        [0, 0, 0, 0, 0, 0, 0, 0],
        [31, 31, 0, 1, 1, 2390003, 1, 5],
        [17, 5, 1, 3, 0, 1, 0, 0],
        [1, 2, 2, 3, 1, 15158271, 0, 0],
        [3, 4, 3, 7, 0, 774911, 0, 0],
    ];
    let (mut gains, mut lines) = (vec![2.0; 64], vec![1.5; 82]);
    gains[63] = 4.0;
    lines[78] = f32::MAX;
    checks.map(|x| check(f32::from_bits(x))).concat()
        + &[1, 15].map(|at| interpolated(&step(at))).concat()
        + &fields.map(decoded).concat()
        + &shaped(true, &gains, lines)
        + &shaped(false, &[0.5; 60], vec![3.0; 61])
}
