use crate::inputs::{coordinates, Random};
use crate::{narrow, reference, totals, Met};
use mavrihkel::{outline_centroid_into, outline_totals_into};

const LIMIT: i64 = reference::LIMIT as i64;

fn compare(six: [i64; 6], met: &mut Met) {
    let (number, values) = reference::centre_call(six.map(i128::from));
    let mut out = [-1; 2];
    assert_eq!(
        outline_centroid_into(totals(six), &mut out),
        number,
        "{six:?}"
    );
    assert_eq!(out, narrow(values), "{six:?}");
    met.count(number);
}

#[test]
fn totals_of_every_size() {
    let mut random = Random::seeded(6);
    let mut met = Met::default();
    for _ in 0..100_000 {
        let size = random.one_of(&[1, 10, 1_000, 1_000_000_000, LIMIT]);
        let mut six = [0; 6].map(|_: i64| random.between(-size, size));
        if random.one_in(2) {
            six[0] = random.between(-20, 20);
        }
        if random.one_in(4) {
            let at = random.between(0, 5) as usize;
            let any = random.next() as i64;
            six[at] = random.one_of(&[
                LIMIT,
                LIMIT + 1,
                -LIMIT,
                -LIMIT - 1,
                i64::MIN,
                i64::MAX,
                any,
            ]);
        }
        compare(six, &mut met);
    }
    met.each_of(&[0, 11, 27], 1_000);
}

/// Every quotient of small numbers, so every half, above and below 0 and by either sign of the area.
#[test]
fn every_small_quotient() {
    let mut met = Met::default();
    for a2 in -8..=8 {
        for n in -60..=60 {
            compare([a2, n, -n - 1, 0, 0, 0], &mut met);
        }
    }
    met.each_of(&[0, 27], 100);
}

#[test]
fn outlines() {
    let mut random = Random::seeded(7);
    let mut met = Met::default();
    for _ in 0..5_000 {
        let count = random.between(3, 40) as usize;
        let mut six = [0; 6];
        assert_eq!(
            outline_totals_into(&coordinates(&mut random, 2 * count), &mut six),
            0
        );
        compare(six, &mut met);
    }
    met.each_of(&[0, 27], 10);
}
