use crate::inputs::{backwards, coordinates, damaged, Random};
use crate::{narrow, reference, Met};
use mavrihkel::outline_totals_into;

fn compare(list: &[i32], met: &mut Met) {
    let (number, values) = reference::list_call(list);
    let mut out = [-1; 6];
    let named = format!(
        "{} numbers, {:?} ..",
        list.len(),
        &list[..list.len().min(12)]
    );
    assert_eq!(outline_totals_into(list, &mut out), number, "{named}");
    assert_eq!(out, narrow(values), "{named}");
    met.count(number);
}

#[test]
fn every_short_length_and_every_length_at_the_limits() {
    let mut random = Random::seeded(1);
    let mut met = Met::default();
    for length in (0..=40).chain(2040..=2060) {
        for _ in 0..20 {
            compare(&coordinates(&mut random, length), &mut met);
            compare(&damaged(&mut random, length), &mut met);
        }
    }
    met.each_of(&[0, 1, 2], 100);
}

#[test]
fn outlines_of_every_size() {
    let mut random = Random::seeded(2);
    let mut met = Met::default();
    for points in 3..=1024 {
        compare(&coordinates(&mut random, 2 * points), &mut met);
        compare(&damaged(&mut random, 2 * points), &mut met);
    }
    met.each_of(&[0, 1], 500);
}

#[test]
fn each_number_past_the_limits_alone() {
    let mut met = Met::default();
    let square = [0, 0, 1, 0, 1, 1, 0, 1];
    for at in 0..square.len() {
        for z in [-2001, -2000, 2000, 2001, i32::MIN, i32::MAX] {
            let mut list = square;
            list[at] = z;
            compare(&list, &mut met);
        }
    }
    met.each_of(&[0, 1], 16);
}

#[test]
fn the_largest_totals() {
    let mut met = Met::default();
    let corners = [-2000, -2000, 2000, -2000, 2000, 2000, -2000, 2000];
    for rounds in [1, 244, 245, 256, 257] {
        let list = corners.repeat(rounds);
        compare(&list, &mut met);
        compare(&backwards(&list), &mut met);
    }
    met.each_of(&[0, 2], 2);
}
