//! The Rust's encoder, numbering and decoder behind plain signatures.
#![allow(dead_code)]
use crate::inputs::{Factors, GAINS};
use lc3::common::config::{FrameDuration, Lc3Config, SamplingFrequency};
use lc3::decoder::side_info::SnsVq;
use lc3::decoder::spectral_noise_shaping::{decode, mpvq_deenum};
use lc3::encoder::spectral_noise_shaping::SpectralNoiseShaping;
use lc3::tables::band_index_tables::*;

/// What the encoder answers: low row, high row, shape, gain, sign A, sign B, joint index, index A, index B; and the sixteen factors.
#[derive(PartialEq)]
pub struct Quantized {
    pub numbers: [i64; 9],
    pub factors: Factors,
}

/// Indices A and B of a joint index, which the Rust does not answer: how its own stage 2 put them together, taken apart.
fn indices(shape: usize, joint: i64) -> (i64, i64) {
    match shape {
        0 => (joint % 2390004, (joint / 2390004 - 2) / 2),
        1 => (joint % 2390004, 0),
        2 => (joint, 0),
        _ => ((joint - 15158272) / 2, 0),
    }
}

macro_rules! encoder {
    ($name:ident, $rust:ident) => {
        pub fn $name(x: &Factors) -> Quantized {
            let mut factors = [0.0; 16];
            let (rows, rest) = $rust::encoder::spectral_noise_shaping::SpectralNoiseShaping::run_quant(x, &mut factors);
            let [low, high, shape, gain, joint] = [rows.ind_lf, rows.ind_hf, rest.shape_j, rest.gind, rest.index_joint_j].map(|n| n as i64);
            let (a, b) = indices(rest.shape_j, joint);
            Quantized { numbers: [low, high, shape, gain, rest.ls_inda as i64, rest.ls_indb as i64, joint, a, b], factors }
        }
    };
}

// the Rust as it is; with the patch of order 3; with those of orders 3 and 5; with those of all orders; with these, set B's pulse starting at
// place 10; with these, the later of a tie (build.sh)
encoder!(run_quant, lc3);
encoder!(run_quant_order_3, lc3_order_3);
encoder!(run_quant_order_5, lc3_order_5);
encoder!(run_quant_patched, lc3_patched);
encoder!(run_quant_place_10, lc3_place_10);
encoder!(run_quant_later, lc3_later);

/// Low row, high row, shape, gain, sign A, sign B, index A and index B as the Rust's decoder has them.
pub fn sns_vq([ind_lf, ind_hf, shape, g_ind, ls_inda, ls_indb, idx_a, idx_b]: [usize; 8]) -> SnsVq {
    let (submode_lsb, submode_msb) = ((shape % 2) as u8, (shape / 2) as u8);
    SnsVq { ind_lf, ind_hf, ls_inda, ls_indb, idx_a, idx_b, submode_lsb, submode_msb, g_ind }
}

impl Quantized {
    /// The answer's gain is the last of its row, which the Rust as it is never tries.
    pub fn has_last_gain(&self) -> bool {
        let [_, _, shape, gain, ..] = self.numbers.map(|n| n as usize);
        gain + 1 == GAINS[shape]
    }

    /// The numbers are the same, and no factor is more than 2^-19 away: what order 9 may change.
    pub fn has_other_last_bits(&self, other: &Quantized) -> bool {
        self.numbers == other.numbers && self.farthest(other) <= 2f32.powi(-19)
    }

    /// How far a factor is from the other's, the most of the sixteen.
    pub fn farthest(&self, other: &Quantized) -> f32 {
        self.factors.iter().zip(&other.factors).fold(0.0, |most, (x, y)| most.max((x - y).abs()))
    }

    /// The answer as the decoder's fields.
    pub fn fields(&self) -> SnsVq {
        let [low, high, shape, gain, sign_a, sign_b, _, a, b] = self.numbers.map(|n| n as usize);
        sns_vq([low, high, shape, gain, sign_a, sign_b, a, b])
    }

    /// The answer is of shape 3, the first that is searched: no pair was handed on to it.
    pub fn has_first_search(&self) -> bool {
        self.numbers[2] == 3
    }
}

/// Dimension, pulse count and size of the four pairs.
pub const PAIRS: [(usize, usize, usize); 4] = [(10, 10, 2390004), (6, 1, 6), (16, 8, 15158272), (16, 6, 774912)];

/// The index and the lead sign of a vector.
pub fn pack(vector: &[i32]) -> (usize, i32) {
    let (mut index, mut sign) = (0, 0);
    SpectralNoiseShaping::mvpq_enum(&mut index, &mut sign, vector.len(), vector);
    (index, sign)
}

pub fn unpack_into(dimension: usize, pulses: usize, sign: usize, index: usize, vector: &mut [i32]) {
    mpvq_deenum(dimension, pulses, sign, index, vector);
}

/// A rate index from 0 to 4.
pub fn config(rate: usize, ten_ms: bool) -> Lc3Config {
    use SamplingFrequency::*;
    let frame = if ten_ms { FrameDuration::TenMs } else { FrameDuration::SevenPointFiveMs };
    Lc3Config::new([Hz8000, Hz16000, Hz24000, Hz32000, Hz48000][rate], frame)
}

pub fn limits(rate: usize, ten_ms: bool) -> &'static [usize] {
    match (ten_ms, rate) {
        (true, 0) => &I_8000_10MS,
        (true, 1) => &I_16000_10MS,
        (true, 2) => &I_24000_10MS,
        (true, 3) => &I_32000_10MS,
        (true, _) => &I_48000_10MS,
        (false, 0) => &I_8000_7P5MS,
        (false, 1) => &I_16000_7P5MS,
        (false, 2) => &I_24000_7P5MS,
        (false, 3) => &I_32000_7P5MS,
        (false, _) => &I_48000_7P5MS,
    }
}

/// The decoder as it is, with band values in the place of their powers of two (see stand_ins/fast_math.rs): each line
/// below the last limit is multiplied by its band's value. `fields.g_ind` and the rest are the decoder's own.
pub fn shaped(rate: usize, ten_ms: bool, fields: &SnsVq, lines: &mut [f32]) {
    decode(&config(rate, ten_ms), fields, lines);
}

/// The band values: what lines of 1.0 become.
pub fn bands(rate: usize, ten_ms: bool, fields: &SnsVq) -> Vec<f32> {
    let limits = limits(rate, ten_ms);
    let mut lines = vec![1.0; limits[limits.len() - 1]];
    shaped(rate, ten_ms, fields, &mut lines);
    limits[..limits.len() - 1].iter().map(|from| lines[*from]).collect()
}
