use crate::inputs::{coordinates, Random};
use crate::{affine_map, narrow, reference, totals, Met};
use mavrihkel::{map_totals, map_totals_into, outline_totals};

fn compare(map: [i32; 6], six: [i64; 6], met: &mut Met) {
    let (number, values) = reference::map_call(map.map(i128::from), six.map(i128::from));
    let mut out = [-1; 6];
    assert_eq!(
        map_totals_into(affine_map(map), totals(six), &mut out),
        number,
        "{map:?} {six:?}"
    );
    assert_eq!(out, narrow(values), "{map:?} {six:?}");
    met.count(number);
}

fn allowed_map(random: &mut Random) -> [i32; 6] {
    let size = [2, 2, 2, 2, 2000, 2000];
    size.map(|s| random.between(-s, s) as i32)
}

/// Totals within the outline bounds: of any size, at the bounds, or small.
fn some_totals(random: &mut Random) -> [i64; 6] {
    let share = random.one_of(&[1, 1, 10, 1_000_000]);
    let at_bounds = random.one_in(4);
    narrow(reference::BOUNDS).map(|b| {
        if at_bounds {
            random.one_of(&[-b, b])
        } else {
            random.between(-b / share, b / share)
        }
    })
}

#[test]
fn any_allowed_map_of_any_totals() {
    let mut random = Random::seeded(3);
    let mut met = Met::default();
    for _ in 0..100_000 {
        compare(allowed_map(&mut random), some_totals(&mut random), &mut met);
    }
    met.each_of(&[0, 5], 10_000);
}

#[test]
fn coefficients_and_totals_past_their_limits() {
    let mut random = Random::seeded(4);
    let mut met = Met::default();
    for _ in 0..20_000 {
        let mut map = allowed_map(&mut random);
        let mut six = some_totals(&mut random);
        if random.one_in(2) {
            let at = random.between(0, 5) as usize;
            let limit = if at < 4 { 2 } else { 2000 };
            let any = random.next() as i32;
            map[at] = random.one_of(&[
                limit,
                limit + 1,
                -limit,
                -limit - 1,
                i32::MIN,
                i32::MAX,
                any,
            ]);
        }
        if random.one_in(2) {
            let at = random.between(0, 5) as usize;
            let b = narrow(reference::BOUNDS)[at];
            let any = random.next() as i64;
            six[at] = random.one_of(&[b, b + 1, -b, -b - 1, i64::MIN, i64::MAX, any]);
        }
        compare(map, six, &mut met);
    }
    met.each_of(&[0, 3, 4, 5], 500);
}

/// XY24 comes to 10^18, one less and one more, by either sign; the other five are smaller.
#[test]
fn results_at_the_limit() {
    let mut met = Met::default();
    for sign in [-1, 1] {
        for more in [-1, 0, 1] {
            let x6 = 30_000_000_000_000;
            let xx12 = 50_000_000_000_000_000;
            let xy24 = 80_000_000_000_000_000 + more;
            let six = [0, x6, 0, xx12, xy24, 0].map(|t| sign * t);
            compare([1, 0, 2, 1, 2000, 2000], six, &mut met);
        }
    }
    met.each_of(&[0, 5], 2);
}

/// Demand 3 over the boundary: the map call on the totals of an outline is the list call on its moved points.
#[test]
fn moved_points_have_the_mapped_totals() {
    let mut random = Random::seeded(5);
    let mut moved_in_bounds = 0;
    for _ in 0..5_000 {
        let count = random.between(3, 30) as usize;
        let mut points = coordinates(&mut random, 2 * count);
        for z in &mut points {
            *z /= 4;
        }
        let map = allowed_map(&mut random);
        let [a, b, g, h, e, f] = map;
        let moved: Vec<i32> = points
            .chunks(2)
            .flat_map(|p| [a * p[0] + b * p[1] + e, g * p[0] + h * p[1] + f])
            .collect();
        let before = outline_totals(&points).expect("an outline");
        if let Ok(after) = outline_totals(&moved) {
            assert_eq!(
                map_totals(affine_map(map), before),
                Ok(after),
                "{points:?} {map:?}"
            );
            moved_in_bounds += 1;
        }
    }
    assert!(moved_in_bounds >= 100, "{moved_in_bounds}");
}
