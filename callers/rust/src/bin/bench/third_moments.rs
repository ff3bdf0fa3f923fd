//! The call for third moments. All three test the length, then all numbers against 2,000, then all against 500; then they sum the four terms of each edge, from the caller's list in place.
//! "in place" ends each test at the first number outside; "same steps" looks at every number.
use crate::outlines::{outline, wrong_length};
use crate::{agree, least_times, Call};
use mavrihkel::third_moments_into;

const POINTS_A_ROUND: usize = 200_000;

fn library(points: &[i32], out: &mut [i64; 4]) -> u32 {
    third_moments_into(points, out)
}

fn cube_bracket(x: i64, p: i64) -> i64 {
    (x + p) * (x * x + p * p)
}

fn mixed_bracket(x: i64, y: i64, p: i64, q: i64) -> i64 {
    let s = x + p;
    s * s * (y + q) + 2 * (x * x * y + p * p * q)
}

fn sum_edges(points: &[i32], out: &mut [i64; 4]) {
    let mut sum = [0; 4];
    let mut from = &points[points.len() - 2..];
    for to in points.chunks_exact(2) {
        let (x, y) = (i64::from(from[0]), i64::from(from[1]));
        let (p, q) = (i64::from(to[0]), i64::from(to[1]));
        let c = x * q - p * y;
        sum[0] += c * cube_bracket(x, p);
        sum[1] += c * mixed_bracket(x, y, p, q);
        sum[2] += c * mixed_bracket(y, x, q, p);
        sum[3] += c * cube_bracket(y, q);
        from = to;
    }
    *out = sum;
}

/// The call, by a test whether a number of the list is outside a limit.
#[inline(always)]
fn tested_by(any_outside: impl Fn(&[i32], i32) -> bool, points: &[i32], out: &mut [i64; 4]) -> u32 {
    if wrong_length(points) {
        return 2;
    }
    if any_outside(points, 2000) {
        return 1;
    }
    if any_outside(points, 500) {
        return 35;
    }
    sum_edges(points, out);
    0
}

fn outside(z: &i32, limit: i32) -> bool {
    !(-limit..=limit).contains(z)
}

#[inline(never)]
fn in_place(points: &[i32], out: &mut [i64; 4]) -> u32 {
    let any_outside = |points: &[i32], limit| points.iter().any(|z| outside(z, limit));
    tested_by(any_outside, points, out)
}

#[inline(never)]
fn same_steps(points: &[i32], out: &mut [i64; 4]) -> u32 {
    let any_outside = |points: &[i32], limit| {
        let found_at = |found, z| found | outside(z, limit);
        points.iter().fold(false, found_at)
    };
    tested_by(any_outside, points, out)
}

/// A polygon with `count` points within 500.
fn near_outline(count: usize) -> Vec<i32> {
    outline(count).iter().map(|z| z / 4).collect()
}

/// All three refuse the same lists with the same number: 2 before 1 before 35, by a number at each place. Four times as far out, others are past 500 too.
fn agree_on_refusals(calls: &[Call<[i32], 4>]) {
    let mut list = near_outline(64);
    for i in 0..list.len() {
        let sound = list[i];
        for (z, number) in [(-501, 35), (501, 35), (-2001, 1), (2001, 1)] {
            list[i] = z;
            agree(calls, &list, number);
            agree(calls, &list[1..], 2);
            let far: Vec<i32> = list.iter().map(|z| 4 * z).collect();
            agree(calls, &far, 1);
        }
        list[i] = sound;
    }
    agree(calls, &outline(64), 35);
    agree(calls, &near_outline(2), 2);
    agree(calls, &near_outline(1025), 2);
}

pub fn table() {
    let calls: [Call<[i32], 4>; 3] = [library, in_place, same_steps];
    agree_on_refusals(&calls);
    println!("points, third moments  library/in place  library/same steps");
    for count in [4, 64, 1024] {
        let points = near_outline(count);
        agree(&calls, &points, 0);
        let [proved, placed, same] = least_times(calls, &points, POINTS_A_ROUND / count);
        println!(
            "{count:21}  {:16.2}  {:18.2}",
            proved / placed,
            proved / same
        );
    }
}
