//! The port's stage 1 beside the Rust's `sns_quant_stage1`: time, and every answer.
#[path = "../tests/rust/inputs.rs"]
mod inputs;
mod timing;

use inputs::Factors;
use lc3::encoder::spectral_noise_shaping::SpectralNoiseShaping;
use timing::side;

extern "C" {
    fn bench_stage1(scf: &Factors, st1: &mut Factors, r1: &mut Factors) -> u32;
}

/// The low row, and the high row 8 bits up; the codes; the residual.
type Answer = (u32, Factors, Factors);

fn ours(x: &Factors) -> Answer {
    let (mut codes, mut residual) = ([0.0; 16], [0.0; 16]);
    (unsafe { bench_stage1(x, &mut codes, &mut residual) }, codes, residual)
}

fn rust(x: &Factors) -> Answer {
    let (mut codes, mut residual) = ([0.0; 16], [0.0; 16]);
    let rows = SpectralNoiseShaping::sns_quant_stage1(x, &mut codes, &mut residual);
    ((rows.ind_lf + (rows.ind_hf << 8)) as u32, codes, residual)
}

fn main() {
    timing::main(&[64, 4, 1].map(|scale| (format!("stage 1, scale {scale}"), inputs::timed(scale))), &[side("ours", ours), side("the Rust", rust)]);
}
