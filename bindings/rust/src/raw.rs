//! The library's own calls, as include/lc3_sns.h has them, each behind a function that is safe for every input: a slice's pointer
//! and length belong together, the pointer is never null, and `&mut` slices overlap no other. For a caller who wants the numbers as
//! they are, or slices of any length lent to every call; the functions above this module are the usual way.
use super::Fields;

#[repr(C)]
pub struct Code {
    pub number: u32,
    pub place: u32,
}

#[repr(C)]
pub struct Encoded {
    pub number: u32,
    pub place: u32,
    pub low_row: u32,
    pub high_row: u32,
    pub shape: u32,
    pub gain: u32,
    pub sign_a: u32,
    pub sign_b: u32,
    pub joint_index: u32,
    pub index_a: u32,
    pub index_b: u32,
}

#[repr(C)]
pub struct Packed {
    pub number: u32,
    pub place: u32,
    pub sign: u32,
    pub index: u32,
}

#[repr(C)]
pub struct Checked {
    pub number: u32,
    pub value: f32,
}

extern "C" {
    fn lc3_sns_check_factor(x: f32) -> Checked;
    fn lc3_sns_encode(factors: *const f32, factors_len: usize, out: *mut f32, out_len: usize) -> Encoded;
    fn lc3_sns_decode(
        low_row: u32,
        high_row: u32,
        shape: u32,
        gain: u32,
        sign_a: u32,
        sign_b: u32,
        index_a: u32,
        index_b: u32,
        factors: *mut f32,
        factors_len: usize,
    ) -> Code;
    fn lc3_sns_interpolate(factors: *const f32, factors_len: usize, band_count: u32, bands: *mut f32, bands_len: usize) -> Code;
    fn lc3_sns_shape(
        rate: u32,
        ten_ms: bool,
        band_count: u32,
        gains: *const f32,
        gains_len: usize,
        lines: *mut f32,
        lines_len: usize,
    ) -> Code;
    fn lc3_sns_pack(dimension: u32, pulses: u32, vector: *const i32, vector_len: usize) -> Packed;
    fn lc3_sns_unpack(dimension: u32, pulses: u32, sign: u32, index: u32, vector: *mut i32, vector_len: usize) -> Code;
}

pub fn check_factor(x: f32) -> Checked {
    unsafe { lc3_sns_check_factor(x) }
}

pub fn encode(factors: &[f32], out: &mut [f32]) -> Encoded {
    unsafe { lc3_sns_encode(factors.as_ptr(), factors.len(), out.as_mut_ptr(), out.len()) }
}

pub fn decode(f: &Fields, factors: &mut [f32]) -> Code {
    unsafe {
        lc3_sns_decode(
            f.low_row,
            f.high_row,
            f.shape,
            f.gain,
            f.sign_a,
            f.sign_b,
            f.index_a,
            f.index_b,
            factors.as_mut_ptr(),
            factors.len(),
        )
    }
}

pub fn interpolate(factors: &[f32], band_count: u32, bands: &mut [f32]) -> Code {
    unsafe { lc3_sns_interpolate(factors.as_ptr(), factors.len(), band_count, bands.as_mut_ptr(), bands.len()) }
}

pub fn shape(rate: u32, ten_ms: bool, band_count: u32, gains: &[f32], lines: &mut [f32]) -> Code {
    unsafe { lc3_sns_shape(rate, ten_ms, band_count, gains.as_ptr(), gains.len(), lines.as_mut_ptr(), lines.len()) }
}

pub fn pack(dimension: u32, pulses: u32, vector: &[i32]) -> Packed {
    unsafe { lc3_sns_pack(dimension, pulses, vector.as_ptr(), vector.len()) }
}

pub fn unpack(dimension: u32, pulses: u32, sign: u32, index: u32, vector: &mut [i32]) -> Code {
    unsafe { lc3_sns_unpack(dimension, pulses, sign, index, vector.as_mut_ptr(), vector.len()) }
}
