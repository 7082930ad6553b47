//! The inputs of the comparison and of the bench: sixteen factors at a time, by named distributions, and fields of the
//! decoder; the same on every run. Every factor is finite and within plus or minus 64; every field is one that is taken.
#![allow(dead_code)]
use lc3::decoder::side_info::SnsVq;
use lc3::encoder::spectral_noise_shaping::SpectralNoiseShaping;
use lc3::tables::spec_noise_shape_quant_tables::*;

pub type Factors = [f32; 16];

/// How many gains the tables hold for each shape.
pub const GAINS: [usize; 4] = [SNS_VQ_REG_ADJ_GAINS.len(), SNS_VQ_REG_LF_ADJ_GAINS.len(), SNS_VQ_NEAR_ADJ_GAINS.len(), SNS_VQ_FAR_ADJ_GAINS.len()];

/// How many of so many inputs a run takes: all, or a tenth where COMPARE=short.
pub fn share(of: usize) -> usize {
    if std::env::var("COMPARE").is_ok_and(|how| how == "short") { of / 10 } else { of }
}

pub struct Distribution {
    pub name: &'static str,
    draw: fn(&mut Source) -> Factors,
}

impl Distribution {
    /// The first `count` inputs. The seed is the name, so a distribution does not move when another is added.
    pub fn inputs(&self, count: usize) -> impl Iterator<Item = Factors> + '_ {
        let seed = self.name.bytes().fold(14695981039346656037, |h: u64, b| (h ^ b as u64).wrapping_mul(1099511628211));
        let mut source = Source(seed);
        (0..count).map(move |_| (self.draw)(&mut source).map(|x| x.clamp(-64.0, 64.0)))
    }
}

pub const ALL: &[Distribution] = &[
    Distribution { name: "uniform to 64", draw: |s| s.each(|s| 64.0 * s.signed()) },
    Distribution { name: "uniform to 4", draw: |s| s.each(|s| 4.0 * s.signed()) },
    Distribution { name: "uniform to 1", draw: |s| s.each(|s| s.signed()) },
    Distribution { name: "gaussian 16", draw: |s| s.each(|s| 16.0 * s.gaussian()) },
    Distribution { name: "gaussian 2", draw: |s| s.each(|s| 2.0 * s.gaussian()) },
    Distribution { name: "gaussian 0.1", draw: |s| s.each(|s| 0.1 * s.gaussian()) },
    Distribution { name: "slow curve", draw: slow_curve },
    Distribution { name: "code rows", draw: code_rows },
    Distribution { name: "code rows, ulps off", draw: |s| { let x = code_rows(s); ulps_off(s, x) } },
    Distribution { name: "code rows, near", draw: |s| { let x = code_rows(s); x.map(|v| v + 0.01 * s.gaussian()) } },
    Distribution { name: "between two rows", draw: between_rows },
    Distribution { name: "code rows and pulses", draw: rows_and_pulses },
    Distribution { name: "zeros of both signs", draw: |s| s.each(|s| s.pick(&[0.0, -0.0])) },
    Distribution { name: "few places not zero", draw: |s| s.each(|s| if s.below(6) == 0 { 8.0 * s.signed() } else { 0.0 }) },
    Distribution { name: "equal values", draw: |s| [s.power() * s.signed(); 16] },
    Distribution { name: "denormals", draw: |s| s.each(|s| f32::from_bits((s.next() as u32) & 0x807f_ffff)) },
    Distribution { name: "every size", draw: |s| s.each(|s| s.power() * s.signed()) },
    Distribution { name: "eighths", draw: |s| { let most = s.pick(&[8, 64, 512]); s.each(|s| s.below(2 * most + 1) as f32 / 8.0 - most as f32 / 8.0) } },
    Distribution { name: "ends of the range", draw: |s| { let x = s.each(|s| s.pick(&[64.0, -64.0])); ulps_off(s, x) } },
    Distribution { name: "corners, ulps off", draw: |s| { let x = s.pick(CORNERS).1.map(f32::from_bits); ulps_off(s, x) } },
    Distribution { name: "decoded factors", draw: decoded },
    Distribution { name: "decoded factors, ulps off", draw: |s| { let x = decoded(s); ulps_off(s, x) } },
];

/// A float of any bits: any size, an infinity or a NaN.
pub fn any_float(s: &mut Source) -> f32 {
    f32::from_bits(s.next() as u32)
}

/// The uniform inputs of one scale, for timing.
pub fn timed(scale: usize) -> Vec<Factors> {
    let name = format!("uniform to {scale}");
    ALL.iter().find(|d| d.name == name).expect("a scale of the list").inputs(100_000).collect()
}

/// Fields of the decoder, without end: the four shapes in turn, with every gain that the shape has. Indices lie anywhere, or
/// near either end. In shapes 1 to 3 the fields of set B, which nobody looks at, are filled as well.
pub fn fields() -> impl Iterator<Item = SnsVq> {
    let mut s = Source(6);
    (0..4).cycle().map(move |shape| {
        let size = [2390004, 2390004, 15158272, 774912][shape];
        let near = s.below(4);
        SnsVq {
            ind_lf: s.below(32) as usize,
            ind_hf: s.below(32) as usize,
            ls_inda: s.below(2) as usize,
            ls_indb: s.below(2) as usize,
            idx_a: match s.below(8) {
                0 => near as usize,
                1 => size - 1 - near as usize,
                _ => s.below(size as u64) as usize,
            },
            idx_b: s.below(6) as usize,
            submode_lsb: (shape % 2) as u8,
            submode_msb: (shape / 2) as u8,
            g_ind: s.below(GAINS[shape] as u64) as usize,
        }
    })
}

/// Shape 1 with gain 3 and shape 3 with gain 7, which is scanned later.
pub const TIE: &str = "two candidates at the least distortion";

/// Shapes 3 and 2 put all eight pulses past place 9, and what is left of their correlation is below zero.
pub const BELOW_ZERO: &str = "shape 1 starts with no pulse, below zero";

/// The input of a corner.
pub fn corner(name: &str) -> Factors {
    CORNERS.iter().find(|c| c.0 == name).expect("a corner of the list").1.map(f32::from_bits)
}

/// Single inputs that random ones seldom or never meet, as f32 bits.
pub const CORNERS: &[(&str, [u32; 16])] = &[
    ("two code rows at the least distance", [
        0xc277b95d, 0x41932fc2, 0x422d47fb, 0xc242affc, 0x42121867, 0xc1127670, 0xc1a03040, 0x421897ea,
        0xc1f16dc3, 0xc1d99061, 0x4133a011, 0x4253a507, 0xc261f047, 0x4109cce0, 0x41d5905b, 0xc1db0e46,
    ]),
    ("two code rows at the least distance, whole", [
        0x00000000, 0x00000000, 0x00000000, 0x00000000, 0x00000000, 0x00000000, 0x00000000, 0x00000000,
        0xc1100000, 0x42100000, 0xc2380000, 0x42680000, 0xc0c00000, 0xc2000000, 0x41a80000, 0xc1700000,
    ]),
    (TIE, [
        0xc15bb388, 0x411de78c, 0x3f7bed80, 0x3f879150, 0x3feffb20, 0x40be791c, 0xc09a43c4, 0xc12cc818,
        0xc0ec5c24, 0xc125d0ae, 0x40786e00, 0xc04d0c98, 0x41658554, 0xc149d810, 0xc1254fca, 0x41681c98,
    ]),
    (BELOW_ZERO, [
        0x00000000, 0x00000000, 0x40475f34, 0xc0683898, 0x40ccc7ae, 0x00000000, 0x00000000, 0x00000000,
        0x00000000, 0x00000000, 0x00000000, 0x00000000, 0x00000000, 0x00000000, 0x00000000, 0xc038352c,
    ]),
    ("no target from place 10 on, another shape", [
        0x4024f9a3, 0x402ccd71, 0x3fb4c39c, 0xbefcb1ac, 0xbfae5a99, 0xbf897df6, 0xbf3e7e3e, 0xbf581c48,
        0xbf673617, 0xbeb460c0, 0x3f103ece, 0x3f9f4836, 0x3fc551a4, 0x3f9a8799, 0xbe047f2e, 0xc002a62f,
    ]),
    ("no target from place 10 on, the same shape", [
        0xbf0f3a4f, 0xbd72463f, 0xbeba7dd4, 0xbfdea672, 0xbfda38eb, 0x3de37813, 0x40012738, 0x403287ab,
        0xbfb0dc9e, 0xbf4c5a92, 0x3e237112, 0x3facb748, 0x3fad590d, 0x3e56f111, 0x3d88b39f, 0x3f2da0d0,
    ]),
];

/// Random numbers by splitmix64, from a seed.
pub struct Source(pub u64);

impl Source {
    pub fn next(&mut self) -> u64 {
        self.0 = self.0.wrapping_add(0x9e37_79b9_7f4a_7c15);
        let z = (self.0 ^ (self.0 >> 30)).wrapping_mul(0xbf58_476d_1ce4_e5b9);
        let z = (z ^ (z >> 27)).wrapping_mul(0x94d0_49bb_1331_11eb);
        z ^ (z >> 31)
    }

    pub fn below(&mut self, n: u64) -> u64 {
        self.next() % n
    }

    pub fn pick<T: Copy>(&mut self, of: &[T]) -> T {
        of[self.below(of.len() as u64) as usize]
    }

    /// From -1 up to, but not, 1.
    fn signed(&mut self) -> f32 {
        (self.next() >> 40) as f32 / 8388608.0 - 1.0
    }

    /// A sum of twelve uniform values, near enough to a gaussian of deviation 1 and with no call of a library.
    fn gaussian(&mut self) -> f32 {
        (0..12).map(|_| 0.5 * self.signed()).sum()
    }

    /// A power of two from 2^-30 to 64.
    fn power(&mut self) -> f32 {
        f32::from_bits((97 + self.below(37) as u32) << 23)
    }

    pub fn each(&mut self, mut one: impl FnMut(&mut Source) -> f32) -> Factors {
        std::array::from_fn(|_| one(self))
    }
}

fn code_rows(s: &mut Source) -> Factors {
    let (low, high) = (s.pick(&LFCB), s.pick(&HFCB));
    std::array::from_fn(|n| if n < 8 { low[n] } else { high[n - 8] })
}

fn ulps_off(s: &mut Source, x: Factors) -> Factors {
    x.map(|v| f32::from_bits(v.to_bits().wrapping_add(s.below(7) as u32).wrapping_sub(3)))
        .map(|v| if v.is_finite() { v } else { 0.0 })
}

/// Halfway between the codes of two pairs of rows.
fn between_rows(s: &mut Source) -> Factors {
    let (a, b) = (code_rows(s), code_rows(s));
    std::array::from_fn(|n| (a[n] + b[n]) / 2.0)
}

/// Codes and a few whole pulses at a gain: what the second stage meets exactly, or nearly.
fn rows_and_pulses(s: &mut Source) -> Factors {
    let (code, gain) = (code_rows(s), s.pick(&SNS_VQ_FAR_ADJ_GAINS));
    let pulses = s.each(|s| s.pick(&[0.0, 0.0, 0.0, 1.0, -1.0, 2.0]));
    std::array::from_fn(|n| code[n] + gain * (0..16).map(|k| pulses[k] * D[n][k]).sum::<f32>())
}

/// What the encoder synthesised of some other factors: quantized once, to be quantized again.
fn decoded(s: &mut Source) -> Factors {
    let (x, mut factors) = (s.each(|s| 3.0 * s.gaussian()), [0.0; 16]);
    SpectralNoiseShaping::run_quant(&x, &mut factors);
    factors
}

/// A curve without jumps, as a spectrum gives it.
fn slow_curve(s: &mut Source) -> Factors {
    let mut at = 4.0 * s.signed();
    s.each(|s| {
        at += s.signed();
        at
    })
}
