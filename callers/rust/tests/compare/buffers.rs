//! The whole buffer after each call, whatever its length.
use crate::{affine_map, runs_of, totals};
use mavrihkel::{
    compare_walks_into, fix_point_into, map_totals_into, mask_runs_into, mask_totals_into,
    outline_centroid_into, outline_totals_into, region_totals_into, third_moments_into,
    SHORT_BUFFER,
};

const UNIT_SQUARE: [i32; 8] = [0, 0, 1, 0, 1, 1, 0, 1];
const ITS_TOTALS: [i64; 6] = [2, 3, 3, 4, 6, 4];

/// Lends buffers of every length to 12 to a call that gives the number and the values. Behind each lies one entry more, which is not the call's to write.
fn leaves_the_rest(call: impl Fn(&mut [i64]) -> u32, number: u32, values: &[i64]) {
    for length in 0..=12 {
        let before: Vec<i64> = (0..=length as i64).map(|k| i64::MIN + k).collect();
        let mut out = before.clone();
        let answer = call(&mut out[..length]);
        if length < values.len() {
            assert_eq!((answer, out), (SHORT_BUFFER, before));
        } else {
            assert_eq!((answer, &out[..values.len()]), (number, values));
            assert_eq!(out[values.len()..], before[values.len()..]);
        }
    }
}

#[test]
fn list_call() {
    leaves_the_rest(|out| outline_totals_into(&UNIT_SQUARE, out), 0, &ITS_TOTALS);
    leaves_the_rest(
        |out| outline_totals_into(&UNIT_SQUARE[..7], out),
        2,
        &[0; 6],
    );
    leaves_the_rest(|out| outline_totals_into(&[9999; 6], out), 1, &[0; 6]);
}

#[test]
fn third_moments_call() {
    let call = |points: &'static [i32]| move |out: &mut [i64]| third_moments_into(points, out);
    leaves_the_rest(call(&UNIT_SQUARE), 0, &[5, 10, 10, 5]);
    leaves_the_rest(call(&UNIT_SQUARE[1..]), 2, &[0; 4]);
    leaves_the_rest(call(&[600, 0, 2001, 0, 0, 1]), 1, &[0; 4]);
    leaves_the_rest(call(&[0, 0, 501, 0, 0, 1]), 35, &[0; 4]);
}

#[test]
fn walks_call() {
    let call = |first: &'static [i32], second: &'static [i32]| {
        move |out: &mut [i64]| compare_walks_into(first, second, out)
    };
    let half = &UNIT_SQUARE[..6];
    let itself = [0, 0, 0, 0, 0, 0, 0, 0, 0, 8];
    leaves_the_rest(call(&UNIT_SQUARE, &UNIT_SQUARE), 0, &itself);
    leaves_the_rest(
        call(half, &UNIT_SQUARE),
        0,
        &[-1, -1, -2, -1, -3, -3, 0, 1, 1, 8],
    );
    leaves_the_rest(call(&UNIT_SQUARE, &UNIT_SQUARE[1..]), 2, &[0; 10]);
    leaves_the_rest(call(&UNIT_SQUARE[1..], &UNIT_SQUARE), 2, &[0; 10]);
    leaves_the_rest(call(&UNIT_SQUARE, &[9999; 6]), 1, &[0; 10]);
    leaves_the_rest(call(&[9999; 6], &UNIT_SQUARE), 1, &[0; 10]);
}

#[test]
fn fix_call() {
    let call = |east, north| move |out: &mut [i64]| fix_point_into(east, north, out);
    leaves_the_rest(call(0.5, -2000.5), 0, &[1, -2000]);
    leaves_the_rest(call(-0.0, 2000.5), 1, &[0; 2]);
    leaves_the_rest(call(f32::NAN, 2000.5), 33, &[0; 2]);
    leaves_the_rest(call(-1.0, f32::NEG_INFINITY), 33, &[0; 2]);
}

#[test]
fn map_call() {
    let call = |map, six| move |out: &mut [i64]| map_totals_into(affine_map(map), totals(six), out);
    let large = [0, 0, 0, 98_304_000_000_000_000, 0, 98_304_000_000_000_000];
    leaves_the_rest(
        call([1, 1, 0, 1, 1, 0], ITS_TOTALS),
        0,
        &[2, 12, 3, 50, 26, 4],
    );
    leaves_the_rest(call([3, 1, 0, 1, 1, 0], ITS_TOTALS), 3, &[0; 6]);
    leaves_the_rest(call([1, 1, 0, 1, 1, 0], [i64::MAX; 6]), 4, &[0; 6]);
    leaves_the_rest(call([2, 2, -2, 2, 0, 0], large), 5, &[0; 6]);
}

#[test]
fn centre_call() {
    let call = |six| move |out: &mut [i64]| outline_centroid_into(totals(six), out);
    leaves_the_rest(call(ITS_TOTALS), 0, &[1, 1]);
    leaves_the_rest(call([i64::MIN; 6]), 11, &[0; 2]);
    leaves_the_rest(call([0, 3, 3, 4, 6, 4]), 27, &[0; 2]);
}

#[test]
fn region_call() {
    let call = |runs: &[[u32; 3]]| {
        let runs = runs_of(runs);
        move |out: &mut [i64]| region_totals_into(&runs, out)
    };
    leaves_the_rest(call(&[]), 0, &[0; 7]);
    leaves_the_rest(call(&[[3, 2, 3]]), 0, &[6, 63, 63, 468, 882, 444, 0]);
    leaves_the_rest(call(&[[3, 2, 3], [3, 2, 0]]), 6, &[0, 0, 0, 0, 0, 0, 1]);
    leaves_the_rest(call(&[[3, 2, 3], [3, 4, 1]]), 7, &[0, 0, 0, 0, 0, 0, 1]);
    leaves_the_rest(call(&[[3, 2, 0]; 4097]), 8, &[0; 7]);
}

#[test]
fn mask_totals_call() {
    let call = |words: &[u64]| {
        let words = words.to_vec();
        move |out: &mut [i64]| mask_totals_into(&words, out)
    };
    leaves_the_rest(call(&[]), 0, &[0; 6]);
    leaves_the_rest(call(&[6; 16]), 0, &[64, 92544, 96, 122635904, 185088, 128]);
    leaves_the_rest(call(&[6; 15]), 31, &[0; 6]);
}

/// Where the buffer is too short, the list of runs stays as it was as well.
#[test]
fn mask_runs_call() {
    let call = |words: &[u64], length: usize, written: usize| {
        let words = words.to_vec();
        move |out: &mut [i64]| {
            let before = runs_of(&vec![[7, 8, 9]; length]);
            let mut list = before.clone();
            let number = mask_runs_into(&words, &mut list, out);
            let written = if number == 0 { written } else { 0 };
            assert_eq!(list[written..], before[written..]);
            assert!((0..written).all(|k| list[k] == runs_of(&[[0, 64 * k as u32 + 1, 2]])[0]));
            number
        }
    };
    leaves_the_rest(call(&[], 0, 0), 0, &[0]);
    leaves_the_rest(call(&[6; 16], 16, 16), 0, &[16]);
    leaves_the_rest(call(&[6; 16], 20, 16), 0, &[16]);
    leaves_the_rest(call(&[6; 16], 15, 0), 8, &[0]);
    leaves_the_rest(call(&[6; 17], 20, 0), 31, &[0]);
}
