//! The port's decode, interpolate and shape beside the Rust's decoder. Its power of two is replaced by the band value itself
//! (stand_ins/fast_math.rs), so lines of 1.0 show the bands, and any other lines are shaped by them.
mod inputs;
mod reference;

use inputs::{any_float, share, Source};
use lc3::decoder::side_info::SnsVq;
use lc3_sns::{raw, Fields};
use reference::{bands, limits, shaped};

fn fields(f: &SnsVq) -> Fields {
    let [low_row, high_row, gain, sign_a, sign_b, index_a, index_b] =
        [f.ind_lf, f.ind_hf, f.g_ind, f.ls_inda, f.ls_indb, f.idx_a, f.idx_b].map(|n| n as u32);
    let shape = (f.submode_lsb + 2 * f.submode_msb) as u32;
    Fields { low_row, high_row, shape, gain, sign_a, sign_b, index_a, index_b }
}

/// The bands of some fields, 60 or 64. A refusal leaves a NaN, which equals nothing of the Rust's.
fn ours(f: &SnsVq, bands: &mut [f32]) {
    let mut factors = [f32::NAN; 16];
    raw::decode(&fields(f), &mut factors);
    raw::interpolate(&factors, bands.len() as u32, bands);
}

fn same(a: &[f32], b: &[f32]) -> bool {
    a.iter().map(|x| x.to_bits()).eq(b.iter().map(|x| x.to_bits()))
}

fn decoded(f: &SnsVq) -> bool {
    let (mut wide, mut narrow) = ([f32::NAN; 64], [f32::NAN; 60]);
    ours(f, &mut wide);
    ours(f, &mut narrow);
    same(&wide, &bands(4, true, f)) && same(&narrow, &bands(0, false, f))
}

/// Lines of any finite float, and up to nine more past the last limit, of any bits.
fn lines(rate: usize, ten_ms: bool, s: &mut Source) -> Vec<f32> {
    let below = *limits(rate, ten_ms).last().unwrap();
    let past = s.below(10) as usize;
    let finite = |s: &mut Source| std::iter::repeat_with(|| any_float(s)).find(|x| x.is_finite()).unwrap();
    (0..below + past).map(|n| if n < below { finite(s) } else { any_float(s) }).collect()
}

fn shaped_alike(rate: usize, ten_ms: bool, f: &SnsVq, s: &mut Source) -> bool {
    let mut gains = vec![f32::NAN; limits(rate, ten_ms).len() - 1];
    ours(f, &mut gains);
    let mut rust = lines(rate, ten_ms, s);
    let mut here = rust.clone();
    shaped(rate, ten_ms, f, &mut rust);
    let answer = raw::shape(rate as u32, ten_ms, gains.len() as u32, &gains, &mut here);
    (answer.number, answer.place) == (0, 0) && same(&rust, &here)
}

fn main() {
    let (decodes, spectra) = (share(1_000_000), share(20_000));
    let bad: Vec<SnsVq> = inputs::fields().take(decodes).filter(|f| !decoded(f)).collect();
    println!("decoder: {decodes} fields, as 64 and as 60 bands; {} differ", bad.len());
    if let Some(f) = bad.first() {
        println!("  first: {f:?}");
    }
    let mut wrong = bad.len();
    for (rate, ten_ms) in (0..5).flat_map(|rate| [(rate, true), (rate, false)]) {
        let mut s = Source(10 * rate as u64 + ten_ms as u64);
        let w = inputs::fields().take(spectra).filter(|f| !shaped_alike(rate, ten_ms, f, &mut s)).count();
        let (bands, last) = (limits(rate, ten_ms).len() - 1, limits(rate, ten_ms).last().unwrap());
        println!("shaping: rate {rate}, {} ms, {bands} bands to line {last}: {spectra} spectra; {w} differ", if ten_ms { "10" } else { "7.5" });
        wrong += w;
    }
    std::process::exit((wrong > 0) as i32)
}
