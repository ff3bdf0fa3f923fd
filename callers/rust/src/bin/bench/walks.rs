//! The call on two walks of as many points each. The loop in Rust tests the lists and sums their edges as the "same steps" of the list call do; then, for each point of one, it looks for the nearest of the other among all of them, one way and the other, in 32 bits.
use crate::outlines::{outline, same_steps};
use crate::{agree, least_times, Call, Numbers};
use mavrihkel::compare_walks_into;

const PAIRS_A_ROUND: usize = 4_000_000;

/// The first walk and the second.
type Walks = [Vec<i32>; 2];

fn library([first, second]: &Walks, out: &mut [i64; 10]) -> u32 {
    compare_walks_into(first, second, out)
}

/// The greatest squared distance from a point of one walk to the nearest of the other.
fn distance(from: &[i32], to: &[i32]) -> i32 {
    let mut greatest = 0;
    for p in from.chunks_exact(2) {
        let mut least = i32::MAX;
        for q in to.chunks_exact(2) {
            let (x, y) = (p[0] - q[0], p[1] - q[1]);
            least = least.min(x * x + y * y);
        }
        greatest = greatest.max(least);
    }
    greatest
}

#[inline(never)]
fn double_loop([first, second]: &Walks, out: &mut [i64; 10]) -> u32 {
    *out = [0; 10];
    let mut totals = [[0; 6]; 2];
    for (list, six) in [first, second].into_iter().zip(&mut totals) {
        let number = same_steps(list, six);
        if number != 0 {
            return number;
        }
    }
    for k in 0..6 {
        out[k] = totals[0][k] - totals[1][k];
    }
    let second_is_longer = second.len() > first.len();
    let longer = if second_is_longer { second } else { first };
    out[6] = i64::from(distance(first, second));
    out[7] = i64::from(distance(second, first));
    out[8] = i64::from(second_is_longer);
    out[9] = longer.len() as i64;
    0
}

/// An outline, and the same recorded by another: begun at its middle, each number off by 3 at most.
fn walks(count: usize) -> Walks {
    let mut numbers = Numbers(54321);
    let first = outline(count);
    let mut second: Vec<i32> = first
        .iter()
        .map(|z| (z + numbers.below(7) as i32 - 3).clamp(-2000, 2000))
        .collect();
    second.rotate_left(count / 2 * 2);
    [first, second]
}

/// Both answer the same for walks of different lengths, either of them the longer.
fn agree_on_lengths(calls: &[Call<Walks, 10>]) {
    let [first, second] = walks(64);
    for count in 3..64 {
        agree(calls, &[first.clone(), second[..2 * count].to_vec()], 0);
        agree(calls, &[first[..2 * count].to_vec(), second.clone()], 0);
    }
}

/// Both refuse the same lists with the same number, the first before the second.
fn agree_on_refusals(calls: &[Call<Walks, 10>]) {
    let [first, second] = walks(64);
    let odd = &first[1..];
    let refuse = |first: &[i32], second: &[i32], number| {
        agree(calls, &[first.to_vec(), second.to_vec()], number);
    };
    for i in 0..first.len() {
        let mut with_one_outside = first.clone();
        with_one_outside[i] = [-2001, 2001][i % 2];
        refuse(&with_one_outside, &second, 1);
        refuse(&second, &with_one_outside, 1);
        refuse(&with_one_outside, odd, 1);
        refuse(odd, &with_one_outside, 2);
    }
    for count in [0, 2, 1025] {
        refuse(&outline(count), &second, 2);
        refuse(&first, &outline(count), 2);
    }
}

pub fn table() {
    let calls: [Call<Walks, 10>; 2] = [library, double_loop];
    agree_on_lengths(&calls);
    agree_on_refusals(&calls);
    println!("points of each walk  library/double loop");
    for count in [64, 1024] {
        let both = walks(count);
        agree(&calls, &both, 0);
        let [proved, looped] = least_times(calls, &both, PAIRS_A_ROUND / (count * count));
        println!("{count:19}  {:19.2}", proved / looped);
    }
}
