//! LC3 spectral noise shaping: a safe face over the proved library.
//!
//! Every call takes any numbers and any slices and always returns: `Ok`, or the refusal that the library gives. After a
//! refusal each lent slice holds what it held.
use std::fmt;

pub mod raw;

/// A refusal: its number and the place that it speaks of.
#[derive(Clone, Copy, Debug, PartialEq, Eq)]
pub struct Refusal {
    pub number: u32,
    pub place: u32,
}

impl fmt::Display for Refusal {
    fn fmt(&self, f: &mut fmt::Formatter) -> fmt::Result {
        let why = match self.number {
            1 => "a codebook row is over 31",
            2 => "the shape is over 3",
            3 => "the gain is over 1, 3, 3, 7 for shapes 0 to 3",
            4 => "a lead sign is neither 0 nor 1",
            5 => "an index is at or above its size",
            6 => "the pulses don't add up to the pair's count",
            7 => "a factor is NaN or infinite",
            8 => "a factor is beyond the limit",
            9 => "a slice has the wrong length",
            10 => "the rate is over 4, or the pair is none of the four",
            11 => "the band count isn't 60 or 64, or isn't the table's",
            12 => "a spectrum line or linear gain is NaN or infinite",
            _ => "refused",
        };
        write!(f, "refused {} at {}: {}", self.number, self.place, why)
    }
}

impl std::error::Error for Refusal {}

/// Why one factor is not taken.
#[derive(Clone, Copy, Debug, PartialEq)]
pub enum FactorRefusal {
    /// No. 7: NaN or infinite.
    NotFinite,
    /// No. 8: beyond the limit, with the offending value.
    TooFar(f32),
}

/// The fields of a quantized frame, as the decoder takes them.
#[derive(Clone, Copy, Debug, Default, PartialEq, Eq)]
pub struct Fields {
    pub low_row: u32,
    pub high_row: u32,
    pub shape: u32,
    pub gain: u32,
    pub sign_a: u32,
    pub sign_b: u32,
    pub index_a: u32,
    pub index_b: u32,
}

/// What the encoder answers: the fields, their joint index, and the sixteen synthesised factors, which are bit for bit those that
/// [`decode`] makes of the fields.
#[derive(Clone, Copy, Debug, PartialEq)]
pub struct Encoded {
    pub fields: Fields,
    pub joint_index: u32,
    pub factors: [f32; 16],
}

/// The frame length.
#[derive(Clone, Copy, Debug, PartialEq, Eq)]
pub enum Frame {
    SevenPointFiveMs,
    TenMs,
}

/// A lead sign and an index.
#[derive(Clone, Copy, Debug, PartialEq, Eq)]
pub struct Packed {
    pub sign: u32,
    pub index: u32,
}

fn done(code: raw::Code) -> Result<(), Refusal> {
    match code.number {
        0 => Ok(()),
        number => Err(Refusal { number, place: code.place }),
    }
}

/// The factor itself, or why it is not taken.
pub fn check_factor(x: f32) -> Result<f32, FactorRefusal> {
    let c = raw::check_factor(x);
    match c.number {
        0 => Ok(c.value),
        8 => Err(FactorRefusal::TooFar(c.value)),
        _ => Err(FactorRefusal::NotFinite),
    }
}

/// Quantizes sixteen factors, and synthesises sixteen as [`decode`] of the answer does, bit for bit. Refusals: 9, 7, 8.
pub fn encode(factors: &[f32]) -> Result<Encoded, Refusal> {
    let mut out = [0.0; 16];
    let e = raw::encode(factors, &mut out);
    if e.number != 0 {
        return Err(Refusal { number: e.number, place: e.place });
    }
    let fields = Fields {
        low_row: e.low_row,
        high_row: e.high_row,
        shape: e.shape,
        gain: e.gain,
        sign_a: e.sign_a,
        sign_b: e.sign_b,
        index_a: e.index_a,
        index_b: e.index_b,
    };
    Ok(Encoded { fields, joint_index: e.joint_index, factors: out })
}

/// The sixteen factors of a frame's fields. Refusals: 1, 2, 3, 4, 5.
pub fn decode(fields: &Fields) -> Result<[f32; 16], Refusal> {
    let mut factors = [0.0; 16];
    done(raw::decode(fields, &mut factors)).map(|()| factors)
}

/// Fills 60 or 64 bands, as many as the slice has. Refusals: 11, 9, 7, 8.
pub fn interpolate(factors: &[f32], bands: &mut [f32]) -> Result<(), Refusal> {
    done(raw::interpolate(factors, count(bands.len()), bands))
}

/// Multiplies each line of band b by gain b. The rate is 0 to 4 for 8, 16, 24, 32 and 48 kHz. Refusals: 10, 11, 9, 12.
pub fn shape(rate: u32, frame: Frame, gains: &[f32], lines: &mut [f32]) -> Result<(), Refusal> {
    done(raw::shape(rate, frame == Frame::TenMs, count(gains.len()), gains, lines))
}

/// Numbers a pulse vector. Refusals: 10, 9, 6.
pub fn pack(dimension: u32, pulses: u32, vector: &[i32]) -> Result<Packed, Refusal> {
    let p = raw::pack(dimension, pulses, vector);
    match p.number {
        0 => Ok(Packed { sign: p.sign, index: p.index }),
        number => Err(Refusal { number, place: p.place }),
    }
}

/// Fills the pulse vector of a lead sign and an index. Refusals: 10, 9, 4, 5.
pub fn unpack(dimension: u32, pulses: u32, packed: Packed, vector: &mut [i32]) -> Result<(), Refusal> {
    done(raw::unpack(dimension, pulses, packed.sign, packed.index, vector))
}

// A length as the library counts it: one that no u32 holds is no band count either.
fn count(len: usize) -> u32 {
    u32::try_from(len).unwrap_or(u32::MAX)
}
