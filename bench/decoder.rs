//! The port's public decode, interpolate and shape: time, and with BEFORE=COMMIT beside that commit's, every answer compared.
#[path = "../tests/rust/inputs.rs"]
mod inputs;
#[path = "../tests/rust/reference.rs"]
mod reference;
mod timing;

use inputs::{Factors, Source};
use reference::limits;
use timing::side;

/// Low row, high row, shape, gain, signs of A and B, indices of A and B.
type Fields = [u32; 8];

fn fields() -> Vec<Fields> {
    let plain = |f: lc3::decoder::side_info::SnsVq| {
        let shape = f.submode_lsb as usize + 2 * f.submode_msb as usize;
        [f.ind_lf, f.ind_hf, shape, f.g_ind, f.ls_inda as usize, f.ls_indb as usize, f.idx_a, f.idx_b].map(|n| n as u32)
    };
    inputs::fields().take(100_000).map(plain).collect()
}

fn factors() -> Vec<Factors> {
    let mut s = Source(64);
    (0..100_000).map(|_| std::array::from_fn(|_| s.below(1 << 24) as f32 / (1 << 18) as f32 - 32.0)).collect()
}

struct Spectrum {
    gains: [f32; 64],
    lines: Vec<f32>,
}

/// At 48 kHz and 10 ms, the most lines that a band table shapes.
fn spectra() -> Vec<Spectrum> {
    let (mut s, count) = (Source(480), *limits(4, true).last().unwrap());
    let mut small = move || s.below(1 << 16) as f32 / 4096.0 - 8.0;
    (0..4_000).map(|_| Spectrum { gains: std::array::from_fn(|_| small()), lines: (0..count).map(|_| small()).collect() }).collect()
}

macro_rules! calls {
    ($decode:ident, $decode_symbol:ident, $interpolate:ident, $interpolate_symbol:ident, $shape:ident, $shape_symbol:ident) => {
        fn $decode(f: &Fields) -> [f32; 16] {
            extern "C" {
                fn $decode_symbol(a: u32, b: u32, c: u32, d: u32, e: u32, f: u32, g: u32, h: u32, to: *mut f32, len: usize) -> lc3_sns::raw::Code;
            }
            let (mut to, [a, b, c, d, e, f, g, h]) = ([f32::NAN; 16], *f);
            unsafe { $decode_symbol(a, b, c, d, e, f, g, h, to.as_mut_ptr(), 16) };
            to
        }

        fn $interpolate(f: &Factors) -> [f32; 64] {
            extern "C" {
                fn $interpolate_symbol(from: *const f32, from_len: usize, count: u32, to: *mut f32, len: usize) -> lc3_sns::raw::Code;
            }
            let mut to = [f32::NAN; 64];
            unsafe { $interpolate_symbol(f.as_ptr(), 16, 64, to.as_mut_ptr(), 64) };
            to
        }

        fn $shape(s: &Spectrum) -> Vec<f32> {
            extern "C" {
                fn $shape_symbol(rate: u32, ten_ms: bool, count: u32, gains: *const f32, gains_len: usize, lines: *mut f32, len: usize) -> lc3_sns::raw::Code;
            }
            let mut lines = s.lines.clone();
            unsafe { $shape_symbol(4, true, 64, s.gains.as_ptr(), 64, lines.as_mut_ptr(), lines.len()) };
            lines
        }
    };
}

calls!(our_decode, lc3_sns_decode, our_interpolate, lc3_sns_interpolate, our_shape, lc3_sns_shape);
// of an earlier commit (before.sh)
#[cfg(before)]
calls!(before_decode, before_lc3_sns_decode, before_interpolate, before_lc3_sns_interpolate, before_shape, before_lc3_sns_shape);

fn main() {
    let decodes = [
        side("ours", our_decode),
        #[cfg(before)]
        side("before", before_decode),
    ];
    let interpolations = [
        side("ours", our_interpolate),
        #[cfg(before)]
        side("before", before_interpolate),
    ];
    let shapes = [
        side("ours", our_shape),
        #[cfg(before)]
        side("before", before_shape),
    ];
    timing::main(&[("decode".to_string(), fields())], &decodes);
    timing::main(&[("interpolate, 64 bands".to_string(), factors())], &interpolations);
    timing::main(&[("shape, 48 kHz, 10 ms".to_string(), spectra())], &shapes);
}
