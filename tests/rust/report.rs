//! Two calls on every input of every distribution, bit for bit; and how a comparison ends.
#![allow(dead_code)]
use crate::calls::Call;
use crate::inputs::{share, Factors, ALL, CORNERS};

/// A kind of input that is counted. Where the Rust is not followed on that kind, `instead` says what is right.
pub struct Kind {
    pub name: &'static str,
    pub holds: fn(&Factors) -> bool,
    pub instead: Option<Call>,
}

/// Compares, prints a line a distribution, and answers how many inputs differ that must not.
pub fn compare(what: &str, ours: Call, rust: Call, kind: &Kind) -> usize {
    let corners = CORNERS.iter().map(|(name, bits)| (*name, vec![bits.map(f32::from_bits)]));
    let drawn = ALL.iter().map(|d| (d.name, d.inputs(share(60_000)).collect()));
    println!("{what:<44} {:>8} {:>42} {:>8}", "inputs", kind.name, "differ");
    let (mut all, mut some, mut excused, mut wrong) = (0, 0, 0, 0);
    for (name, xs) in drawn.chain(corners) {
        let kinds = xs.iter().filter(|x| (kind.holds)(x)).count();
        let differ: Vec<&Factors> = xs.iter().filter(|x| ours(x) != rust(x)).collect();
        let right = |x: &Factors| (kind.holds)(x) && kind.instead.is_some_and(|instead| ours(x) == instead(x));
        let bad: Vec<&&Factors> = differ.iter().filter(|x| !right(x)).collect();
        println!("{name:<44} {:>8} {kinds:>42} {:>8}", xs.len(), differ.len());
        if let Some(x) = bad.first() {
            println!("  first: {}", x.map(|v| format!("{:08x}", v.to_bits())).join(" "));
        }
        all += xs.len();
        some += kinds;
        excused += differ.len() - bad.len();
        wrong += bad.len();
    }
    let rest = if kind.instead.is_some() { format!(", and {excused} where the Rust is not followed (docs/DIFFERENCES.md)") } else { String::new() };
    println!("{what}: {all} inputs, {some} {}; {wrong} differ{rest}\n", kind.name);
    wrong
}

/// Ends the program: with a failure where anything differs.
pub fn end(wrong: usize) -> ! {
    std::process::exit((wrong > 0) as i32)
}
