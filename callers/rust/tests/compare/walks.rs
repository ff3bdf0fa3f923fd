//! Two walks of one plot: the ten values, and the list handed back, which is the caller's own.
use crate::inputs::{backwards, coordinates, damaged, recorded_again, Random};
use crate::{narrow, reference, totals, Met};
use mavrihkel::{compare_walks, compare_walks_into};
use std::ptr;

/// A walk in few words.
fn named(list: &[i32]) -> String {
    let start = &list[..list.len().min(12)];
    format!("{} numbers, {start:?} ..", list.len())
}

/// Both forms of the call beside the reference, whose number and values it gives.
fn compare(first: &[i32], second: &[i32], met: &mut Met) -> (u32, [i64; 10]) {
    let (number, values) = reference::walks_call(first, second);
    let values = narrow(values);
    let named = format!("{} and {}", named(first), named(second));
    let mut out = [-1; 10];
    let answer = compare_walks_into(first, second, &mut out);
    assert_eq!((answer, out), (number, values), "{named}");
    let [six @ .., there, back, list, length] = values;
    match compare_walks(first, second) {
        Ok(compared) => {
            assert_eq!(number, 0, "{named}");
            assert_eq!(compared.differences, totals(six), "{named}");
            assert_eq!(compared.first_to_second, there, "{named}");
            assert_eq!(compared.second_to_first, back, "{named}");
            let longer = [first, second][list as usize];
            assert_eq!(longer.len(), length as usize, "{named}");
            assert!(ptr::eq(compared.longer, longer), "a copy: {named}");
        }
        Err(refusal) => assert_eq!(refusal.number(), number, "{named}"),
    }
    met.count(number);
    (number, values)
}

/// Two walks in either order: the differences change sign, the distances change places.
fn compare_both_ways(first: &[i32], second: &[i32], met: &mut Met) {
    let (_, [six @ .., there, back, _, length]) = compare(first, second, met);
    let (_, exchanged) = compare(second, first, met);
    assert_eq!(exchanged[..6], six.map(|z| -z));
    assert_eq!(exchanged[6..8], [back, there]);
    assert_eq!(exchanged[9], length);
}

#[test]
fn in_step() {
    let mut random = Random::seeded(17);
    let mut met = Met::default();
    for points in 3..=200 {
        let first = coordinates(&mut random, 2 * points);
        let second = recorded_again(&mut random, &first);
        compare_both_ways(&first, &second, &mut met);
    }
    met.each_of(&[0], 300);
}

/// The second walk begun at every point of the first, and walked either way round.
#[test]
fn out_of_step_and_reversed() {
    let mut random = Random::seeded(18);
    let mut met = Met::default();
    for points in [3, 4, 7, 32, 61] {
        let first = coordinates(&mut random, 2 * points);
        for start in 0..points {
            let mut second = recorded_again(&mut random, &first);
            second.rotate_left(2 * start);
            compare_both_ways(&first, &second, &mut met);
            compare_both_ways(&first, &backwards(&second), &mut met);
        }
    }
    met.each_of(&[0], 400);
}

/// The same points from any start, either way round, are no distance apart. With one left out this holds one way alone.
#[test]
fn the_same_points() {
    let mut met = Met::default();
    let first: Vec<i32> = (0..80).map(|k| k * k % 3001 - 1500).collect();
    for start in 0..40 {
        let mut second = first.clone();
        second.rotate_left(2 * start);
        for second in [backwards(&second), second] {
            let (_, all) = compare(&first, &second, &mut met);
            assert_eq!(all[6..], [0, 0, 0, 80]);
            let (_, one_left_out) = compare(&first, &second[2..], &mut met);
            assert!(one_left_out[6] > 0);
            assert_eq!(one_left_out[7..], [0, 0, 80]);
        }
    }
    met.each_of(&[0], 160);
}

/// Every pair of small numbers of points, and others that are far apart.
#[test]
fn of_different_length() {
    let mut random = Random::seeded(19);
    let mut met = Met::default();
    let small = (3..=24).flat_map(|m| (3..=24).map(move |n| (m, n)));
    for (m, n) in small.chain([(3, 1024), (5, 500), (300, 299), (1000, 37)]) {
        let first = coordinates(&mut random, 2 * m);
        compare_both_ways(&first, &coordinates(&mut random, 2 * n), &mut met);
        let part = recorded_again(&mut random, &first[..2 * m.min(n)]);
        compare_both_ways(&first, &part, &mut met);
    }
    met.each_of(&[0], 1_000);
}

/// The one point that is near, or the one that is far, decides wherever it stands.
#[test]
fn the_point_that_decides() {
    let mut met = Met::default();
    let (near, far) = ([3, -4], [-2000, 1999]);
    for points in [3, 4, 5, 8, 9, 15, 16, 17, 64, 1024_usize] {
        for at in (0..points).step_by(points.div_ceil(20)).chain([points - 1]) {
            for (one, others) in [(near, far), (far, near)] {
                let mut second = others.repeat(points);
                second[2 * at..2 * at + 2].copy_from_slice(&one);
                let (_, values) = compare(&[0; 6], &second, &mut met);
                assert_eq!(values[6..8], [25, 7_996_001]);
                compare_both_ways(&[0; 6], &second, &mut met);
            }
        }
    }
    met.each_of(&[0], 400);
}

/// Parts of one and the same list: apart, overlapping, one within the other, and each with itself.
#[test]
fn parts_of_one_list() {
    let mut random = Random::seeded(20);
    let mut met = Met::default();
    let list = coordinates(&mut random, 30);
    for (a, b) in [(0, 30), (0, 6), (4, 18), (10, 30), (12, 26), (24, 30)] {
        for (c, d) in [(0, 30), (0, 8), (0, 20), (6, 20), (10, 30), (24, 30)] {
            compare_both_ways(&list[a..b], &list[c..d], &mut met);
        }
        let (_, itself) = compare(&list[a..b], &list[a..b], &mut met);
        assert_eq!(itself, [0, 0, 0, 0, 0, 0, 0, 0, 0, (b - a) as i64]);
    }
    met.each_of(&[0], 70);
}

/// Plots walked round many times and in opposite directions; points in opposite corners.
#[test]
fn large_differences_and_the_largest_distance() {
    let mut met = Met::default();
    let round_the_peg = [-2000, -2000, 2000, -2000, 2000, 2000, -2000, 2000].repeat(256);
    compare_both_ways(&round_the_peg, &backwards(&round_the_peg), &mut met);
    let through_the_peg = [0, 0, 2000, 0, 2000, 2000].repeat(341);
    compare_both_ways(&through_the_peg, &backwards(&through_the_peg), &mut met);
    for (x, y) in [(-2000, -2000), (2000, -2000), (2000, 2000), (-2000, 2000)] {
        let (_, values) = compare(&[x, y].repeat(3), &[-x, -y].repeat(1024), &mut met);
        assert_eq!(values[6..], [32_000_000, 32_000_000, 1, 2048]);
    }
    met.each_of(&[0], 8);
}

/// Every short length and every length at the limits, of either list.
#[test]
fn lengths() {
    let mut random = Random::seeded(21);
    let mut met = Met::default();
    let sound = coordinates(&mut random, 10);
    for length in (0..=20).chain(2040..=2060) {
        for list in [
            coordinates(&mut random, length),
            damaged(&mut random, length),
        ] {
            compare(&list, &sound, &mut met);
            compare(&sound, &list, &mut met);
        }
    }
    for m in [1023, 1024] {
        for n in [1023, 1024] {
            let first = coordinates(&mut random, 2 * m);
            compare_both_ways(&first, &coordinates(&mut random, 2 * n), &mut met);
        }
    }
    met.each_of(&[0, 1, 2], 20);
}

/// Each number of either list alone at the limits and past them.
#[test]
fn each_number_past_the_limits_alone() {
    let mut met = Met::default();
    let square = [0, 0, 1, 0, 1, 1, 0, 1];
    for at in 0..square.len() {
        for z in [-2001, -2000, 2000, 2001, i32::MIN, i32::MAX] {
            let mut list = square;
            list[at] = z;
            compare(&list, &square[..6], &mut met);
            compare(&square[..6], &list, &mut met);
        }
    }
    met.each_of(&[0, 1], 32);
}

/// One list refused, or both: the first decides, whatever the second is, and each is tested for 2 before 1.
#[test]
fn refused() {
    let mut random = Random::seeded(22);
    let mut met = Met::default();
    let mut kinds = || {
        [
            (0, coordinates(&mut random, 8)),
            (1, damaged(&mut random, 12)),
            (2, coordinates(&mut random, 9)),
            (2, coordinates(&mut random, 4)),
            (2, coordinates(&mut random, 2050)),
            (2, damaged(&mut random, 11)),
        ]
    };
    for _ in 0..20 {
        for (of_first, first) in kinds() {
            for (of_second, second) in kinds() {
                let number = if of_first == 0 { of_second } else { of_first };
                let (answer, values) = compare(&first, &second, &mut met);
                assert_eq!(answer, number);
                assert!(number == 0 || values == [0; 10]);
            }
        }
    }
    met.each_of(&[0, 1, 2], 20);
}
