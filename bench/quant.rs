//! The port's public encode beside `run_quant` of the Rust with the orders' patches, every answer compared, and of the Rust as it is.
#[path = "../tests/rust/inputs.rs"]
mod inputs;
mod timing;

use inputs::Factors;
use timing::{other, side};

/// Low row, high row, shape, gain, both signs, joint index; the sixteen factors.
type Answer = ([u32; 7], Factors);

macro_rules! encode_by {
    ($name:ident, $symbol:ident) => {
        fn $name(x: &Factors) -> Answer {
            extern "C" {
                fn $symbol(factors: *const f32, factors_len: usize, out: *mut f32, out_len: usize) -> lc3_sns::raw::Encoded;
            }
            let mut factors = [0.0; 16];
            let e = unsafe { $symbol(x.as_ptr(), x.len(), factors.as_mut_ptr(), factors.len()) };
            ([e.low_row, e.high_row, e.shape, e.gain, e.sign_a, e.sign_b, e.joint_index], factors)
        }
    };
}

encode_by!(ours, lc3_sns_encode);
// of an earlier commit (before.sh)
#[cfg(before)]
encode_by!(before, before_lc3_sns_encode);

macro_rules! run_quant_of {
    ($name:ident, $rust:ident) => {
        fn $name(x: &Factors) -> Answer {
            let mut factors = [0.0; 16];
            let (rows, q) = $rust::encoder::spectral_noise_shaping::SpectralNoiseShaping::run_quant(x, &mut factors);
            let numbers = [rows.ind_lf, rows.ind_hf, q.shape_j, q.gind, q.ls_inda as usize, q.ls_indb as usize, q.index_joint_j];
            (numbers.map(|n| n as u32), factors)
        }
    };
}

run_quant_of!(rust, lc3);
run_quant_of!(patched, lc3_patched);

fn main() {
    let sides = [
        side("ours", ours),
        side("the patched Rust", patched),
        other("the Rust", rust),
        #[cfg(before)]
        other("before", before),
    ];
    timing::main(&[64, 4, 1].map(|scale| (format!("encode, scale {scale}"), inputs::timed(scale))), &sides);
}
