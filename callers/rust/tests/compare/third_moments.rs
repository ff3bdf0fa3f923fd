//! Third moments: outlines of every size, lists that are refused, and the cut, start and reversal laws as far as the call shows them.
use crate::inputs::{backwards, coordinates_within, damaged, Random};
use crate::{narrow, third_reference, third_totals, Met};
use mavrihkel::{third_moments, third_moments_into, Refusal};

/// Both forms of the call beside the reference, whose four totals it gives.
fn compare(list: &[i32], met: &mut Met) -> [i64; 4] {
    let (number, values) = third_reference::third_moments_call(list);
    let values = narrow(values);
    let start = &list[..list.len().min(12)];
    let named = format!("{} numbers, {start:?} ..", list.len());
    let mut out = [-1; 4];
    assert_eq!(third_moments_into(list, &mut out), number, "{named}");
    assert_eq!(out, values, "{named}");
    let wanted = match number {
        0 => Ok(third_totals(values)),
        1 => Err(Refusal::CoordinateOutsideLimits),
        2 => Err(Refusal::WrongLength),
        _ => Err(Refusal::TooFarForThirdMoments),
    };
    assert_eq!(third_moments(list), wanted, "{named}");
    met.count(number);
    values
}

/// Coordinates within 500.
fn near(random: &mut Random, length: usize) -> Vec<i32> {
    coordinates_within(random, 500, length)
}

/// A list with one to three numbers past 500, within 2,000.
fn too_far(random: &mut Random, length: usize) -> Vec<i32> {
    let mut list = near(random, length);
    for _ in 0..random.between(1, 3) {
        let at = random.between(0, length as i64 - 1) as usize;
        let any = random.between(501, 2000) as i32;
        list[at] = random.one_of(&[501, -501, 2000, -2000, any, -any]);
    }
    list
}

#[test]
fn outlines_of_every_size() {
    let mut random = Random::seeded(23);
    let mut met = Met::default();
    for points in 3..=1024 {
        compare(&near(&mut random, 2 * points), &mut met);
        compare(&too_far(&mut random, 2 * points), &mut met);
        compare(&damaged(&mut random, 2 * points), &mut met);
    }
    met.each_of(&[0, 1, 35], 500);
}

#[test]
fn small_outlines() {
    let mut random = Random::seeded(24);
    let mut met = Met::default();
    for _ in 0..20_000 {
        let points = random.between(3, 9) as usize;
        compare(&near(&mut random, 2 * points), &mut met);
    }
    met.each_of(&[0], 20_000);
}

/// Every triangle on a grid of nine points about the peg.
#[test]
fn every_small_triangle() {
    let mut met = Met::default();
    for code in 0..729 {
        let list: Vec<i32> = (0..6).map(|k| code / 3_i32.pow(k) % 3 - 1).collect();
        compare(&list, &mut met);
    }
    met.each_of(&[0], 729);
}

#[test]
fn every_short_length_and_every_length_at_the_limits() {
    let mut random = Random::seeded(25);
    let mut met = Met::default();
    for length in (1..=40).chain(2040..=2060) {
        for _ in 0..20 {
            compare(&near(&mut random, length), &mut met);
            compare(&too_far(&mut random, length), &mut met);
            compare(&damaged(&mut random, length), &mut met);
        }
    }
    compare(&[], &mut met);
    met.each_of(&[0, 1, 2, 35], 100);
}

#[test]
fn each_number_past_a_limit_alone() {
    let mut met = Met::default();
    let square = [0, 0, 1, 0, 1, 1, 0, 1];
    for at in 0..square.len() {
        for z in [
            -500,
            500,
            -501,
            501,
            -2000,
            2000,
            -2001,
            2001,
            i32::MIN,
            i32::MAX,
        ] {
            let mut list = square;
            list[at] = z;
            compare(&list, &mut met);
        }
    }
    met.each_of(&[0, 1, 35], 16);
}

/// Of two numbers, one past 500 and one past 2,000, the second decides, wherever both stand.
#[test]
fn one_before_thirty_five() {
    let mut met = Met::default();
    for length in [6, 8, 2048_usize] {
        let places = || (0..length).step_by(length.div_ceil(20)).chain([length - 1]);
        for at in places() {
            for other in places() {
                let mut list = vec![7; length];
                list[other] = -501;
                list[at] = 2001;
                compare(&list, &mut met);
            }
        }
    }
    met.each_of(&[1], 500);
}

/// Walked round many times, either way; the last three come nearest to the bounds.
#[test]
fn the_largest_totals() {
    let mut met = Met::default();
    let plots = [
        [-500, -500, 500, -500, 500, 500, -500, 500],
        [0, 0, 500, 0, 500, 500, 0, 500],
        [500, 500, -500, -500, -500, 500, 500, -500],
        [500, 500, -500, 500, -500, 0, 500, 0],
        [500, 500, 0, 500, 0, -500, 500, -500],
    ];
    let most = [256, 768, 768, 256].map(|n: i64| n * 1_000_000_000_000_000);
    for list in plots.map(|plot| plot.repeat(256)) {
        let there = compare(&list, &mut met);
        let back = compare(&backwards(&list), &mut met);
        assert_eq!(back, there.map(|z| -z));
        assert!(there.iter().zip(most).all(|(z, bound)| z.abs() <= bound));
    }
    met.each_of(&[0], 10);
}

/// An outline from every start, and backwards; cut between any two points that are no neighbours, its two pieces add up.
#[test]
fn cuts_starts_and_directions() {
    let mut random = Random::seeded(26);
    let mut met = Met::default();
    for points in 4..=24 {
        let list = near(&mut random, 2 * points);
        let whole = compare(&list, &mut met);
        for start in 0..points {
            let mut started = list.clone();
            started.rotate_left(2 * start);
            assert_eq!(compare(&started, &mut met), whole);
            assert_eq!(compare(&backwards(&started), &mut met), whole.map(|z| -z));
            for end in 2..points - 1 {
                let kept = compare(&started[..2 * (end + 1)], &mut met);
                let next = [&started[2 * end..], &started[..2]].concat();
                let next = compare(&next, &mut met);
                assert!((0..4).all(|k| kept[k] + next[k] == whole[k]));
            }
        }
    }
    met.each_of(&[0], 5_000);
}
