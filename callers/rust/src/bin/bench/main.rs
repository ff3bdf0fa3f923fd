//! How long the library's calls on lists and on fixes take beside the same work in Rust, as ratios taken in one run:
//!
//!     cargo run --release --bin bench
//!
//! Each time is the least of 25 rounds, in which the calls of a table take turns on the same input.
mod fixes;
mod outlines;
mod regions;
mod third_moments;
mod walks;

use std::hint::black_box;
use std::time::{Duration, Instant};

const ROUNDS: usize = 25;

/// A call on an input, a list or two, in the library's own form: the number of the refusal, and the values.
type Call<Input, const VALUES: usize> = fn(&Input, &mut [i64; VALUES]) -> u32;

fn time<Input: ?Sized, const VALUES: usize>(
    call: Call<Input, VALUES>,
    input: &Input,
    times: usize,
) -> Duration {
    let mut out = [0; VALUES];
    let start = Instant::now();
    for _ in 0..times {
        black_box(call(black_box(input), &mut out));
        black_box(&out);
    }
    start.elapsed()
}

/// The least time of each call, in seconds, of so many on the same input.
fn least_times<Input: ?Sized, const VALUES: usize, const CALLS: usize>(
    calls: [Call<Input, VALUES>; CALLS],
    input: &Input,
    times: usize,
) -> [f64; CALLS] {
    let mut least = [Duration::MAX; CALLS];
    for _ in 0..ROUNDS {
        for (shortest, call) in least.iter_mut().zip(calls) {
            *shortest = time(call, input, times).min(*shortest);
        }
    }
    least.map(|d| d.as_secs_f64())
}

/// Ends the run if two of the calls answer differently, or not with this number.
fn agree<Input: ?Sized, const VALUES: usize>(
    calls: &[Call<Input, VALUES>],
    input: &Input,
    number: u32,
) {
    let answers: Vec<(u32, [i64; VALUES])> = calls
        .iter()
        .map(|call| {
            let mut out = [0; VALUES];
            (call(input, &mut out), out)
        })
        .collect();
    assert!(answers.iter().all(|a| *a == answers[0] && a.0 == number));
}

/// The linear congruential generator of Numerical Recipes: the same numbers in every run.
struct Numbers(u32);

impl Numbers {
    fn below(&mut self, end: u32) -> u32 {
        self.0 = self.0.wrapping_mul(1_664_525).wrapping_add(1_013_904_223);
        (self.0 >> 16) % end
    }
}

fn main() {
    outlines::table();
    println!();
    third_moments::table();
    println!();
    walks::table();
    println!();
    regions::table();
    println!();
    fixes::table();
}
