//! The port's pack and unpack beside the Rust's `mvpq_enum` and `mpvq_deenum`: every index of the four pairs, both lead signs,
//! both ways. A short run takes the first and last hundredth of the larger pairs, and one index in 37 between.
mod inputs;
mod reference;

use inputs::share;
use reference::{pack, unpack_into, PAIRS};

fn indices(size: usize) -> Vec<usize> {
    let (end, all) = (size / 100, share(10) == 10 || size < 10);
    (0..size).filter(|i| all || *i < end || size - end <= *i || i % 37 == 0).collect()
}

/// How many answers of one pair differ: unpacked, and packed again.
fn differ(dimension: usize, pulses: usize, indices: &[usize]) -> usize {
    let (n, k) = (dimension as u32, pulses as u32);
    let (mut rust, mut ours) = (vec![0; dimension], vec![0; dimension]);
    let mut wrong = 0;
    for &index in indices {
        for sign in [0, 1] {
            ours.fill(77);
            unpack_into(dimension, pulses, sign, index, &mut rust);
            let unpacked = lc3_sns::raw::unpack(n, k, sign as u32, index as u32, &mut ours);
            let packed = lc3_sns::raw::pack(n, k, &rust);
            let same = (unpacked.number, unpacked.place, packed.number, packed.place) == (0, 0, 0, 0)
                && ours == rust
                && (packed.index as usize, packed.sign as i32) == pack(&rust)
                && (packed.index as usize, packed.sign as usize) == (index, sign);
            if !same && wrong == 0 {
                println!("  first: ({n},{k}) sign {sign} index {index}: the Rust {rust:?}, here {ours:?}, packed {} {}", packed.sign, packed.index);
            }
            wrong += !same as usize;
        }
    }
    wrong
}

fn main() {
    let mut wrong = 0;
    for (dimension, pulses, size) in PAIRS {
        let indices = indices(size);
        let w = differ(dimension, pulses, &indices);
        println!("({dimension},{pulses}): {} of {size} indices, both signs, unpacked and packed; {w} differ", indices.len());
        wrong += w;
    }
    std::process::exit((wrong > 0) as i32)
}
