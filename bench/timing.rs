//! Functions timed on the same inputs: processor time, rounds interleaved, the best and the median of the rounds.
#![allow(dead_code)]
use std::hint::black_box;

const ROUNDS: usize = 21;

#[repr(C)]
struct Timespec {
    seconds: i64,
    nanoseconds: i64,
}

extern "C" {
    fn clock_gettime(clock: i32, now: *mut Timespec) -> i32;
}

/// This process's processor time, in nanoseconds.
fn processor_time() -> f64 {
    const CLOCK_PROCESS_CPUTIME_ID: i32 = 2;
    let mut now = Timespec { seconds: 0, nanoseconds: 0 };
    assert_eq!(unsafe { clock_gettime(CLOCK_PROCESS_CPUTIME_ID, &mut now) }, 0);
    now.seconds as f64 * 1e9 + now.nanoseconds as f64
}

/// Nanoseconds a call.
fn round<T, A>(call: fn(&T) -> A, inputs: &[T]) -> f64 {
    let start = processor_time();
    for x in inputs {
        black_box(call(black_box(x)));
    }
    (processor_time() - start) / inputs.len() as f64
}

/// What is timed. The first side of a list is the port; the others are measured by it.
pub struct Side<T, A> {
    pub name: &'static str,
    pub call: fn(&T) -> A,
    /// its answers are the first side's: compared before anything is timed
    pub alike: bool,
}

/// A side that answers as the first one does.
pub fn side<T, A>(name: &'static str, call: fn(&T) -> A) -> Side<T, A> {
    Side { name, call, alike: true }
}

/// A side that follows another rule, or may.
pub fn other<T, A>(name: &'static str, call: fn(&T) -> A) -> Side<T, A> {
    Side { name, call, alike: false }
}

/// The sorted times of each side, in nanoseconds a call; the sides take turns.
fn times<T, A>(inputs: &[T], sides: &[Side<T, A>]) -> Vec<Vec<f64>> {
    let mut times = vec![Vec::new(); sides.len()];
    for _ in 0..ROUNDS {
        times.iter_mut().zip(sides).for_each(|(t, side)| t.push(round(side.call, inputs)));
    }
    times.iter_mut().for_each(|t| t.sort_by(f64::total_cmp));
    times
}

/// Prints the best and the median time of each side, and what part of it the first side takes, after the answers were compared.
fn compare<T, A: PartialEq>(what: &str, inputs: &[T], sides: &[Side<T, A>]) {
    let ours = &sides[0];
    for side in sides[1..].iter().filter(|s| s.alike) {
        let differ = inputs.iter().filter(|x| (ours.call)(x) != (side.call)(x)).count();
        assert_eq!(differ, 0, "{what}, {}: {differ} of {} answers differ", side.name, inputs.len());
    }
    let times = times(inputs, sides);
    let (best, median) = (|n: usize| times[n][0], |n: usize| times[n][ROUNDS / 2]);
    print!("{what}, {} inputs: {} {:.0} ns (median {:.0})", inputs.len(), ours.name, best(0), median(0));
    for (n, side) in sides.iter().enumerate().skip(1) {
        let compared = if side.alike { "" } else { ", whose answers may be others," };
        print!("; {}{compared} {:.0} ns (median {:.0}), ratio {:.3} (of medians {:.3})", side.name, best(n), median(n), best(0) / best(n), median(0) / median(n));
    }
    println!();
}

/// What a bench does with its lists of inputs. `count LIST SIDE`: 2000 calls of that side on that list, for an instruction
/// counter, or none where there is no such side. Otherwise every list is timed.
pub fn main<T, A: PartialEq>(lists: &[(String, Vec<T>)], sides: &[Side<T, A>]) {
    let words: Vec<String> = std::env::args().skip(2).collect();
    let [list, side] = &words[..] else {
        lists.iter().for_each(|(what, inputs)| compare(what, inputs, sides));
        return;
    };
    for (_, inputs) in lists.iter().filter(|l| l.0 == *list) {
        for s in sides.iter().filter(|s| s.name == side) {
            round(s.call, &inputs[..2000]);
        }
    }
}
