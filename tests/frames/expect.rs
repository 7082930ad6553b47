//! The recorded frames as input of the programs, and what the Rust answers to them as their expected output: its encoder with the
//! patches of the orders (../rust/build.sh), its decoder as it is.
//! `expect FOLDER` writes FOLDER/NAME/stdin and FOLDER/NAME/stdout for quantize, answers_run and frames_run, and the stdout of
//! decoder_run, which reads nothing.
mod corners;
#[path = "../rust/inputs.rs"]
mod inputs;
#[path = "../rust/reference.rs"]
mod reference;

use inputs::Factors;
use reference::{run_quant, run_quant_order_3, run_quant_order_5, run_quant_patched, run_quant_place_10, Quantized};
use std::fs::{create_dir_all, write};

struct Frame {
    rate: usize,
    ten_ms: bool,
    /// low row, high row, shape, gain, sign A, sign B, index A, index B
    fields: Vec<usize>,
    targets: Factors,
}

fn frame(line: &str) -> Frame {
    let columns: Vec<&str> = line.split_whitespace().collect();
    let number = |n: usize| columns[n].parse().expect("a number");
    let target = |n: usize| f32::from_bits(u32::from_str_radix(columns[11 + n], 16).expect("an f32's bits"));
    Frame {
        rate: number(0),
        ten_ms: number(1) == 100,
        fields: (3..11).map(number).collect(),
        targets: std::array::from_fn(target),
    }
}

/// Sign, whole part, point, six places; the larger of two as near.
fn decimal(x: f32) -> String {
    let millionths = (x.abs() as f64 * 1e6 + 0.5).floor() as u64;
    let sign = if x < 0.0 { "-" } else { "" };
    format!("{sign}{}.{:06}", millionths / 1_000_000, millionths % 1_000_000)
}

fn bits(x: f32) -> String {
    format!("{:08x}", x.to_bits())
}

struct Line {
    text: String,
    refused: bool,
    followed: bool,
}

/// The Rust takes any float. The limit, and what is not finite, are the port's: refused with the first place that is out.
/// `lc3_place_10` has the one rule of document 01 that differs from the patched Rust (../rust/build.sh); where the two differ it is taken.
fn line(x: &Factors, show: fn(f32) -> String) -> Line {
    if let Some(place) = x.iter().position(|v| !(v.abs() <= 64.0)) {
        let number = if x[place].is_finite() { 8 } else { 7 };
        return Line { text: format!("refused {number} at {place}"), refused: true, followed: true };
    }
    let (rust, q) = (run_quant_patched(x), run_quant_place_10(x));
    let (numbers, factors) = (q.numbers.map(|n| n.to_string()).join(" "), q.factors.map(show).join(" "));
    Line { text: format!("{numbers} | {factors}"), refused: false, followed: rust == q }
}

/// Records, and three bytes of one more.
fn records(inputs: &[Factors]) -> Vec<u8> {
    let mut bytes: Vec<u8> = inputs.iter().flatten().flat_map(|v| v.to_le_bytes()).collect();
    bytes.extend([1, 2, 3]);
    bytes
}

/// A refused record for each reason, and the last factor taken on either side.
fn edges() -> Vec<Factors> {
    let put = |place: usize, x: u32| {
        let mut f = [0.25; 16];
        f[place] = f32::from_bits(x);
        f
    };
    let all = [0x7fc0_0000, 0xffff_ffff, 0x7f80_0000, 0xff80_0000, 0x4280_0000, 0xc280_0000, 0x4280_0001, 0xc280_0001];
    all.iter().enumerate().map(|(n, x)| put(15 - n, *x)).collect()
}

fn save(folder: &str, name: &str, stdin: Vec<u8>, stdout: String) {
    let to = format!("{folder}/{name}");
    create_dir_all(&to).expect("the folder");
    write(format!("{to}/stdin"), stdin).expect("stdin");
    write(format!("{to}/stdout"), stdout).expect("stdout");
}

/// Saves records and their lines, and says how often the Rust is not followed.
fn quantize(folder: &str, name: &str, inputs: &[Factors], show: fn(f32) -> String) {
    let lines: Vec<Line> = inputs.iter().map(|x| line(x, show)).collect();
    let refused = lines.iter().filter(|l| l.refused).count();
    let not_followed = lines.iter().filter(|l| !l.followed).count();
    println!("{name}: {} records, {refused} refused, {not_followed} where the Rust is not followed", lines.len());
    let text: String = lines.iter().map(|l| format!("{}\n", l.text)).collect();
    save(folder, name, records(inputs), format!("{text}cut\n{} records, {refused} refused, 1 cut\n", lines.len()));
}

type Rule = fn(&Factors) -> Quantized;

/// What each order changes in the frames' answers, and how many answers are the fields that the codec itself wrote.
fn told(frames: &[Frame]) {
    let written = |q: &Quantized, f: &Frame| {
        let [low, high, shape, gain, sign_a, sign_b, _, a, b] = q.numbers.map(|n| n as usize);
        f.fields == [low, high, shape, gain, sign_a, sign_b, a, b]
    };
    let own = |rule: Rule| frames.iter().filter(|f| written(&rule(&f.targets), f)).count();
    let changed = |before: Rule, after: Rule| frames.iter().filter(|f| before(&f.targets) != after(&f.targets)).count();
    let (rust, order_3, order_5, order_9): (Rule, Rule, Rule, Rule) = (run_quant, run_quant_order_3, run_quant_order_5, run_quant_place_10);
    println!("{} frames: {} answers of the Rust as it is are the codec's own fields", frames.len(), own(rust));
    println!("order 3: {} answers change, {} are the codec's own fields", changed(rust, order_3), own(order_3));
    println!("order 5: {} answers change, {} are the codec's own fields", changed(order_3, order_5), own(order_5));
    let pairs: Vec<(Quantized, Quantized)> = frames.iter().map(|f| (order_5(&f.targets), order_9(&f.targets))).collect();
    let differ = |by: fn(&Quantized, &Quantized) -> bool| pairs.iter().filter(|(before, after)| by(before, after)).count();
    let fields = differ(|before, after| before.numbers != after.numbers);
    let factors = differ(|before, after| before.factors.map(bits) != after.factors.map(bits));
    let printed = differ(|before, after| before.factors.map(decimal) != after.factors.map(decimal));
    println!("order 9: a field changes in {fields} frames, a factor's bits in {factors}, a printed factor in {printed}");
}

/// The decoder on each frame's own fields: the sum of the bits of all band values, modulo 2^32.
fn decoded(frames: &[Frame]) -> (Vec<u8>, String) {
    let (mut stdin, mut sum) = (Vec::<u8>::new(), 0u32);
    for f in frames {
        let v = &f.fields;
        let fields = reference::sns_vq(v[..].try_into().expect("eight fields"));
        let bands = reference::bands(f.rate, f.ten_ms, &fields);
        sum = bands.iter().fold(sum, |s, x| s.wrapping_add(x.to_bits()));
        for n in std::iter::once(&bands.len()).chain(v.iter()) {
            stdin.extend((*n as u32).to_le_bytes());
        }
    }
    let n = frames.len();
    (stdin, format!("{n} accepted of {n}, band values {sum:08x}\n"))
}

fn main() {
    let folder = std::env::args().nth(1).expect("a folder");
    let text = include_str!("frames.txt");
    let frames: Vec<Frame> = text.lines().map(frame).collect();

    told(&frames);
    let targets = frames.iter().map(|f| f.targets);
    quantize(&folder, "quantize", &targets.chain(edges()).collect::<Vec<_>>(), decimal);

    let corners = inputs::CORNERS.iter().map(|(_, x)| x.map(f32::from_bits));
    let drawn = inputs::ALL.iter().flat_map(|d| d.inputs(150));
    quantize(&folder, "answers_run", &corners.chain(drawn).collect::<Vec<_>>(), bits);

    let (stdin, stdout) = decoded(&frames);
    print!("frames_run: {stdout}");
    save(&folder, "frames_run", stdin, stdout);

    let corners = corners::decoder_run();
    println!("decoder_run: {} lines", corners.lines().count());
    create_dir_all(format!("{folder}/decoder_run")).expect("the folder");
    write(format!("{folder}/decoder_run/stdout"), corners).expect("stdout");
}
