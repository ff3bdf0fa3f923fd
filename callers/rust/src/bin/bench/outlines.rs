//! The list call. All three test the length and the limits, then sum the six terms of each edge, from the caller's list in place.
//! "in place" ends the test of the limits at the first number outside; "same steps" looks at every number, as the library does.
use crate::{agree, least_times, Call, Numbers};
use mavrihkel::{outline_totals_into, Totals};

const POINTS_A_ROUND: usize = 200_000;

fn library(points: &[i32], out: &mut [i64; 6]) -> u32 {
    outline_totals_into(points, out)
}

pub fn wrong_length(points: &[i32]) -> bool {
    points.len() % 2 == 1 || !(3..=1024).contains(&(points.len() / 2))
}

fn outside(z: &i32) -> bool {
    !(-2000..=2000).contains(z)
}

fn add_edge(sum: &mut Totals, from: &[i32], to: &[i32]) {
    let (x, y) = (i64::from(from[0]), i64::from(from[1]));
    let (p, q) = (i64::from(to[0]), i64::from(to[1]));
    let c = x * q - p * y;
    sum.a2 += c;
    sum.x6 += (x + p) * c;
    sum.y6 += (y + q) * c;
    sum.xx12 += (x * x + x * p + p * p) * c;
    sum.xy24 += (2 * x * y + x * q + p * y + 2 * p * q) * c;
    sum.yy12 += (y * y + y * q + q * q) * c;
}

fn sum_edges(points: &[i32], out: &mut [i64; 6]) {
    let mut sum = Totals {
        a2: 0,
        x6: 0,
        y6: 0,
        xx12: 0,
        xy24: 0,
        yy12: 0,
    };
    let mut from = &points[points.len() - 2..];
    for to in points.chunks_exact(2) {
        add_edge(&mut sum, from, to);
        from = to;
    }
    *out = [sum.a2, sum.x6, sum.y6, sum.xx12, sum.xy24, sum.yy12];
}

#[inline(never)]
fn in_place(points: &[i32], out: &mut [i64; 6]) -> u32 {
    if wrong_length(points) {
        return 2;
    }
    if points.iter().any(outside) {
        return 1;
    }
    sum_edges(points, out);
    0
}

#[inline(never)]
pub fn same_steps(points: &[i32], out: &mut [i64; 6]) -> u32 {
    if wrong_length(points) {
        return 2;
    }
    if points.iter().fold(false, |found, z| found | outside(z)) {
        return 1;
    }
    sum_edges(points, out);
    0
}

/// A polygon with `count` points in no particular order.
pub fn outline(count: usize) -> Vec<i32> {
    let mut numbers = Numbers(12345);
    (0..2 * count)
        .map(|_| numbers.below(4001) as i32 - 2000)
        .collect()
}

/// All three refuse the same lists with the same number: a number outside at each place, an odd length, too few points and too many.
fn agree_on_refusals(calls: &[Call<[i32], 6>]) {
    let sound = outline(64);
    for i in 0..sound.len() {
        let mut with_one_outside = sound.clone();
        with_one_outside[i] = [-2001, 2001][i % 2];
        agree(calls, &with_one_outside, 1);
        agree(calls, &with_one_outside[1..], 2);
    }
    agree(calls, &outline(2), 2);
    agree(calls, &outline(1025), 2);
}

pub fn table() {
    let calls: [Call<[i32], 6>; 3] = [library, in_place, same_steps];
    agree_on_refusals(&calls);
    println!("points  library/in place  library/same steps");
    for count in [4, 64, 1024] {
        let points = outline(count);
        agree(&calls, &points, 0);
        let [proved, placed, same] = least_times(calls, &points, POINTS_A_ROUND / count);
        println!(
            "{count:6}  {:16.2}  {:18.2}",
            proved / placed,
            proved / same
        );
    }
}
