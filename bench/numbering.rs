//! The port's public unpack and pack beside the Rust's `mpvq_deenum` and `mvpq_enum`, over the four pairs: time, and every answer.
#[path = "../tests/rust/inputs.rs"]
mod inputs;
#[path = "../tests/rust/reference.rs"]
mod reference;
mod timing;

use inputs::Source;
use reference::{pack, unpack_into, PAIRS};
use timing::side;

struct Vector {
    dimension: usize,
    pulses: usize,
    sign: usize,
    index: usize,
    places: [i32; 16],
}

/// 100,000 vectors of a pair, drawn evenly.
fn vectors((dimension, pulses, size): (usize, usize, usize)) -> Vec<Vector> {
    let mut s = Source(size as u64);
    let draw = |_| {
        let (sign, index, mut places) = (s.below(2) as usize, s.below(size as u64) as usize, [0; 16]);
        unpack_into(dimension, pulses, sign, index, &mut places[..dimension]);
        Vector { dimension, pulses, sign, index, places }
    };
    (0..100_000).map(draw).collect()
}

fn lists(what: &str) -> Vec<(String, Vec<Vector>)> {
    PAIRS.iter().map(|p| (format!("{what} ({},{})", p.0, p.1), vectors(*p))).collect()
}

macro_rules! unpack_by {
    ($name:ident, $symbol:ident) => {
        fn $name(v: &Vector) -> [i32; 16] {
            extern "C" {
                fn $symbol(dimension: u32, pulses: u32, sign: u32, index: u32, vector: *mut i32, vector_len: usize) -> lc3_sns::raw::Code;
            }
            let mut places = [0; 16];
            unsafe { $symbol(v.dimension as u32, v.pulses as u32, v.sign as u32, v.index as u32, places.as_mut_ptr(), v.dimension) };
            places
        }
    };
}

unpack_by!(our_unpack, lc3_sns_unpack);
// of an earlier commit (before.sh)
#[cfg(before)]
unpack_by!(before_unpack, before_lc3_sns_unpack);

fn rust_unpack(v: &Vector) -> [i32; 16] {
    let mut places = [0; 16];
    unpack_into(v.dimension, v.pulses, v.sign, v.index, &mut places[..v.dimension]);
    places
}

fn our_pack(v: &Vector) -> (usize, i32) {
    let p = lc3_sns::raw::pack(v.dimension as u32, v.pulses as u32, &v.places[..v.dimension]);
    (p.index as usize, p.sign as i32)
}

fn rust_pack(v: &Vector) -> (usize, i32) {
    pack(&v.places[..v.dimension])
}

fn main() {
    let unpacks = [
        side("ours", our_unpack),
        #[cfg(before)]
        side("before", before_unpack),
        side("the Rust", rust_unpack),
    ];
    timing::main(&lists("unpack"), &unpacks);
    timing::main(&lists("pack"), &[side("ours", our_pack), side("the Rust", rust_pack)]);
}
