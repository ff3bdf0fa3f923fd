//! The static library beside an independent implementation of document 01 and of document 02's pairs of walks, fixes, cells, masks and third moments, on seeded inputs: long and short, valid and damaged.
mod buffers;
mod centres;
mod fixes;
mod inputs;
mod lists;
mod maps;
mod masks;
mod reference;
mod refusals;
mod regions;
mod third_moments;
mod third_reference;
mod walks;
mod worked;

use mavrihkel::{AffineMap, Run, ThirdTotals, Totals};
use std::collections::BTreeMap;

/// How often each number was answered, so that a test can say that it has met them all.
#[derive(Default)]
pub struct Met(BTreeMap<u32, u32>);

impl Met {
    pub fn count(&mut self, number: u32) {
        *self.0.entry(number).or_default() += 1;
    }

    /// Each of the numbers, and no other, has come up at least so often.
    pub fn each_of(&self, numbers: &[u32], least: u32) {
        assert!(self.0.keys().all(|n| numbers.contains(n)), "{:?}", self.0);
        assert!(
            numbers.iter().all(|n| self.0.get(n) >= Some(&least)),
            "{:?}",
            self.0
        );
    }
}

pub fn totals(v: [i64; 6]) -> Totals {
    let [a2, x6, y6, xx12, xy24, yy12] = v;
    Totals {
        a2,
        x6,
        y6,
        xx12,
        xy24,
        yy12,
    }
}

pub fn third_totals(v: [i64; 4]) -> ThirdTotals {
    let [xxx20, xxy60, xyy60, yyy20] = v;
    ThirdTotals {
        xxx20,
        xxy60,
        xyy60,
        yyy20,
    }
}

pub fn affine_map(v: [i32; 6]) -> AffineMap {
    let [a, b, g, h, e, f] = v;
    AffineMap { a, b, g, h, e, f }
}

pub fn runs_of(runs: &[[u32; 3]]) -> Vec<Run> {
    runs.iter()
        .map(|&[row, first, length]| Run { row, first, length })
        .collect()
}

/// The reference's numbers, which fit 64 bits in every outcome.
pub fn narrow<const N: usize>(v: [i128; N]) -> [i64; N] {
    v.map(|z| i64::try_from(z).expect("an outcome fits 64 bits"))
}
