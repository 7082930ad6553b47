//! The port's calls and the Rust's functions, each pair behind one signature: sixteen factors in, all that is answered out, as
//! numbers and as the bits of floats.
#![allow(dead_code)]
use crate::inputs::Factors;

pub type Bits = Vec<u32>;
pub type Call = fn(&Factors) -> Bits;

fn bits(numbers: &[u32], floats: &[f32]) -> Bits {
    numbers.iter().copied().chain(floats.iter().map(|x| x.to_bits())).collect()
}

/// Stage 1: both rows; the codes; the residual.
pub mod stage1 {
    use super::*;
    use lc3::encoder::spectral_noise_shaping::SpectralNoiseShaping;

    extern "C" {
        /// The low row, and the high row 8 bits up.
        fn bench_stage1(scf: &Factors, st1: &mut Factors, r1: &mut Factors) -> u32;
    }

    pub fn ours(f: &Factors) -> Bits {
        let (mut codes, mut residual) = ([f32::NAN; 16], [f32::NAN; 16]);
        let rows = unsafe { bench_stage1(f, &mut codes, &mut residual) };
        bits(&[rows % 256, rows / 256], &[codes, residual].concat())
    }

    pub fn rust(f: &Factors) -> Bits {
        let (mut codes, mut residual) = ([f32::NAN; 16], [f32::NAN; 16]);
        let rows = SpectralNoiseShaping::sns_quant_stage1(f, &mut codes, &mut residual);
        bits(&[rows.ind_lf as u32, rows.ind_hf as u32], &[codes, residual].concat())
    }
}

/// The encoder: refusal, place, rows, shape, gain, signs, joint index, plain indices; the sixteen factors.
pub mod quant {
    use super::*;
    use crate::reference::{run_quant, run_quant_order_3, run_quant_order_5, run_quant_patched, run_quant_place_10, Quantized};

    pub fn ours(f: &Factors) -> Bits {
        let mut factors = [f32::NAN; 16];
        let e = lc3_sns::raw::encode(f, &mut factors);
        let fields = [e.number, e.place, e.low_row, e.high_row, e.shape, e.gain, e.sign_a, e.sign_b, e.joint_index, e.index_a, e.index_b];
        bits(&fields, &factors)
    }

    fn taken(q: Quantized) -> Bits {
        let fields: Vec<u32> = [0, 0].into_iter().chain(q.numbers).map(|n| n as u32).collect();
        bits(&fields, &q.factors)
    }

    pub fn rust(f: &Factors) -> Bits {
        taken(run_quant(f))
    }

    /// With the patch of order 3 alone.
    pub fn order_3(f: &Factors) -> Bits {
        taken(run_quant_order_3(f))
    }

    /// With those of orders 3 and 5.
    pub fn order_5(f: &Factors) -> Bits {
        taken(run_quant_order_5(f))
    }

    /// With those of all orders.
    pub fn patched(f: &Factors) -> Bits {
        taken(run_quant_patched(f))
    }

    /// And with set B's pulse starting at place 10.
    pub fn place_10(f: &Factors) -> Bits {
        taken(run_quant_place_10(f))
    }
}

/// The two ends: the sixteen factors that encode leaves, and those that decode makes of its answer.
pub mod ends {
    use super::*;
    use crate::reference::{bands, run_quant_order_5, run_quant_place_10};
    use lc3_sns::{decode, encode};

    pub fn encoded(f: &Factors) -> Bits {
        bits(&[], &encode(f).expect("encode takes it").factors)
    }

    pub fn decoded(f: &Factors) -> Bits {
        bits(&[], &decode(&encode(f).expect("encode takes it").fields).expect("decode takes it"))
    }

    /// The Rust's own encoder, with the patches of the orders and set B's start put right, as 64 bands.
    pub fn rust_encoded(f: &Factors) -> Bits {
        bands_64::rust(&run_quant_place_10(f).factors)[2..].to_vec()
    }

    /// The Rust's own decoder, on the answer of that encoder.
    pub fn rust_decoded(f: &Factors) -> Bits {
        bits(&[], &bands(4, true, &run_quant_place_10(f).fields()))
    }

    /// Without order 9 the Rust's bands differ between its ends.
    pub fn differed(f: &Factors) -> bool {
        let before = run_quant_order_5(f);
        bands_64::rust(&before.factors)[2..] != bits(&[], &bands(4, true, &before.fields()))
    }
}

/// The 64 bands of sixteen factors: the encoder's side of the Rust, which has the same rule there.
pub mod bands_64 {
    use super::*;
    use lc3::encoder::spectral_noise_shaping::SpectralNoiseShaping;

    pub fn ours(f: &Factors) -> Bits {
        let mut bands = [f32::NAN; 64];
        let c = lc3_sns::raw::interpolate(f, 64, &mut bands);
        bits(&[c.number, c.place], &bands)
    }

    pub fn rust(f: &Factors) -> Bits {
        let mut bands = [f32::NAN; 64];
        SpectralNoiseShaping::apply_scale_factor_interpolation(f, &mut bands);
        bits(&[0, 0], &bands)
    }
}
