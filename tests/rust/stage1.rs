//! Stage 1 of the port beside the Rust's: both rows, the sixteen codes, the sixteen residuals.
mod calls;
mod inputs;
mod reference;
mod report;

use calls::stage1::{ours, rust};
use inputs::Factors;
use lc3::tables::spec_noise_shape_quant_tables::{HFCB, LFCB};
use report::Kind;

/// Two rows of a half are at the least distance.
fn tied(x: &Factors) -> bool {
    [(&x[..8], &LFCB), (&x[8..], &HFCB)].iter().any(|(x, rows)| {
        let distances = rows.map(|row| row.iter().zip(*x).fold(0.0f32, |d, (c, x)| d + (x - c) * (x - c)));
        let least = distances.iter().copied().fold(f32::INFINITY, f32::min);
        distances.iter().filter(|d| **d == least).count() > 1
    })
}

fn main() {
    report::end(report::compare("stage 1", ours, rust, &Kind { name: "with two nearest rows", holds: tied, instead: None }))
}
