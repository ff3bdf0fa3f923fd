//! The region call. Both go over the runs once and test each and its order. The loop in Rust adds each run's sums of 1, x, y, x², xy and y² over its cells by closed formulas, and makes the six totals of them once, at the end.
use crate::{agree, least_times, Call, Numbers};
use mavrihkel::{region_totals_into, Run};

const RUNS_A_ROUND: usize = 200_000;

fn library(runs: &[Run], out: &mut [i64; 7]) -> u32 {
    region_totals_into(runs, out)
}

/// 0 + 1 + .. + (k - 1). Where k is 0, what wraps is multiplied by 0; of the forms tried, this was the fastest.
fn index_sum(k: u64) -> u64 {
    k * k.wrapping_sub(1) / 2
}

/// 0² + 1² + .. + (k - 1)².
fn square_sum(k: u64) -> u64 {
    k * k.wrapping_sub(1) * (2 * k).wrapping_sub(1) / 6
}

/// The totals of the ground under cells, by their sums.
fn totals_of([count, x, y, xx, xy, yy]: [u64; 6]) -> [u64; 6] {
    [
        2 * count,
        6 * x + 3 * count,
        6 * y + 3 * count,
        12 * (xx + x) + 4 * count,
        24 * xy + 12 * (x + y) + 6 * count,
        12 * (yy + y) + 4 * count,
    ]
}

#[inline(never)]
fn loop_over_runs(runs: &[Run], out: &mut [i64; 7]) -> u32 {
    *out = [0; 7];
    if runs.len() > 4096 {
        return 8;
    }
    let mut sums = [0; 6];
    let mut end_before = (0, 0);
    let mut out_of_order = None;
    for (i, run) in runs.iter().enumerate() {
        let (row, first, length) = (
            u64::from(run.row),
            u64::from(run.first),
            u64::from(run.length),
        );
        let end = first + length;
        if row > 1023 || length == 0 || end > 1024 {
            out[6] = i as i64;
            return 6;
        }
        if (row, first) < end_before && out_of_order.is_none() {
            out_of_order = Some(i);
        }
        end_before = (row, end);
        let x = index_sum(end) - index_sum(first);
        let xx = square_sum(end) - square_sum(first);
        let terms = [length, x, length * row, xx, x * row, length * row * row];
        for (sum, term) in sums.iter_mut().zip(terms) {
            *sum += term;
        }
    }
    if let Some(i) = out_of_order {
        out[6] = i as i64;
        return 7;
    }
    for (value, total) in out.iter_mut().zip(totals_of(sums)) {
        *value = total as i64;
    }
    0
}

/// Four runs to a row, one in each quarter of it.
fn region(count: usize) -> Vec<Run> {
    let mut numbers = Numbers(12345);
    (0..count as u32)
        .map(|i| {
            let skipped = numbers.below(256);
            Run {
                row: i / 4,
                first: i % 4 * 256 + skipped,
                length: 1 + numbers.below(256 - skipped),
            }
        })
        .collect()
}

/// The two agree on refused lists too, by whatever run and from the first on.
fn agree_on_refusals(calls: &[Call<[Run], 7>]) {
    let sound = region(64);
    for i in 1..sound.len() {
        let mut repeated = sound.clone();
        repeated[i] = repeated[i - 1];
        agree(calls, &repeated, 7);
        let mut without_cells = repeated;
        without_cells[sound.len() - i].length = 0;
        agree(calls, &without_cells, 6);
    }
    let last = sound[sound.len() - 1];
    agree(calls, &vec![last; 4097], 8);
}

pub fn table() {
    let calls: [Call<[Run], 7>; 2] = [library, loop_over_runs];
    agree_on_refusals(&calls);
    println!("runs  library/loop over runs");
    for count in [16, 256, 4096] {
        let runs = region(count);
        agree(&calls, &runs, 0);
        let [proved, looped] = least_times(calls, &runs, RUNS_A_ROUND / count);
        println!("{count:4}  {:22.2}", proved / looped);
    }
}
