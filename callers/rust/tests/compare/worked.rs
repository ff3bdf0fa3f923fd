//! Document 01's plots worked by hand, and document 02's third moments, walks, fixes and regions, through the functions that give results.
use crate::{affine_map, runs_of, third_totals, totals};
use mavrihkel::{
    compare_walks, fix_point, map_totals, mask_runs, mask_totals, outline_centroid, outline_totals,
    region_totals, third_moments, Centre, Comparison, Point, Refusal, RegionRefusal,
};

#[test]
fn plots() {
    let rectangle = totals([80, 1200, 960, 14720, 21120, 8960]);
    assert_eq!(outline_totals(&[2, 0, 10, 4, 8, 8, 0, 4]), Ok(rectangle));
    assert_eq!(outline_centroid(rectangle), Ok(Centre { x: 5, y: 4 }));

    let figure_eight = totals([0, -8, 0, -32, -32, 0]);
    assert_eq!(outline_totals(&[0, 0, 2, 2, 2, 0, 0, 2]), Ok(figure_eight));
    assert_eq!(outline_centroid(figure_eight), Err(Refusal::NoArea));

    let unit_square = totals([2, 3, 3, 4, 6, 4]);
    assert_eq!(outline_totals(&[0, 0, 1, 0, 1, 1, 0, 1]), Ok(unit_square));
    assert_eq!(outline_centroid(unit_square), Ok(Centre { x: 1, y: 1 }));
    let mapped = totals([2, 12, 3, 50, 26, 4]);
    assert_eq!(
        map_totals(affine_map([1, 1, 0, 1, 1, 0]), unit_square),
        Ok(mapped)
    );

    let west = outline_totals(&[-1, 0, 0, 0, 0, 1, -1, 1]).expect("accepted");
    assert_eq!(outline_centroid(west), Ok(Centre { x: 0, y: 1 }));
}

/// Each plot as it is listed; then refusals, each before the next: 2, 1, 35.
#[test]
fn third_moments_of_plots() {
    let worked = [
        ([0, 0, 1, 0, 1, 1, 0, 1], [5, 10, 10, 5]),
        (
            [2, 0, 10, 4, 8, 8, 0, 4],
            [168_000, 342_400, 262_400, 76_800],
        ),
        ([0, 0, 2, 2, 2, 0, 0, 2], [-96, -160, -96, 0]),
        ([-1, 0, 0, 0, 0, 1, -1, 1], [-5, 10, -10, 5]),
    ];
    for (points, four) in worked {
        assert_eq!(third_moments(&points), Ok(third_totals(four)));
    }
    assert_eq!(third_moments(&[2001; 7]), Err(Refusal::WrongLength));
    let first_600 = [600, 0, 0, 5, 0, 2001];
    assert_eq!(
        third_moments(&first_600),
        Err(Refusal::CoordinateOutsideLimits)
    );
    assert_eq!(
        third_moments(&[0, 0, 0, 5, 0, -501]),
        Err(Refusal::TooFarForThirdMoments)
    );
    let corners = [-500, -500, 500, -500, 500, 500];
    assert!(third_moments(&corners).is_ok());
}

fn comparison(six: [i64; 6], there: i64, back: i64, longer: &[i32]) -> Comparison<'_> {
    Comparison {
        differences: totals(six),
        first_to_second: there,
        second_to_first: back,
        longer,
    }
}

/// The rectangle beside a walk of five points, in either order, and with itself; then lists refused, the first before the second.
#[test]
fn walks() {
    let rectangle = [2, 0, 10, 4, 8, 8, 0, 4];
    let five_points = [2, 0, 10, 4, 9, 8, 1, 5, 0, 4];
    let differences = [-5, -90, -85, -1535, -2195, -985];
    assert_eq!(
        compare_walks(&rectangle, &five_points),
        Ok(comparison(differences, 1, 2, &five_points))
    );
    assert_eq!(
        compare_walks(&five_points, &rectangle),
        Ok(comparison(differences.map(|z| -z), 2, 1, &five_points))
    );
    assert_eq!(
        compare_walks(&rectangle, &rectangle),
        Ok(comparison([0; 6], 0, 0, &rectangle))
    );

    let (odd, far_off) = (&rectangle[1..], [0, 0, 2001, 0, 0, 1]);
    let (length, coordinate) = (Refusal::WrongLength, Refusal::CoordinateOutsideLimits);
    assert_eq!(compare_walks(odd, &far_off), Err(length));
    assert_eq!(compare_walks(&far_off, odd), Err(coordinate));
    assert_eq!(compare_walks(&rectangle, odd), Err(length));
    assert_eq!(compare_walks(&rectangle, &far_off), Err(coordinate));
}

/// Halves go up, minus zero is 0, and the half is not added in floats: that would make 0.49999997 a one. 33 comes before 1.
#[test]
fn fixes() {
    let at = |x, y| Ok(Point { x, y });
    assert_eq!(fix_point(-2000.5, 0.5), at(-2000, 1));
    assert_eq!(fix_point(-0.5, -1.5), at(0, -1));
    assert_eq!(fix_point(-0.0, 0.49999997), at(0, 0));
    assert_eq!(fix_point(1.5, -0.50000006), at(2, -1));
    assert_eq!(fix_point(2000.4999, 2000.0), at(2000, 2000));
    let (outside, not_finite) = (Refusal::CoordinateOutsideLimits, Refusal::NotFinite);
    assert_eq!(fix_point(2000.5, 0.0), Err(outside));
    assert_eq!(fix_point(0.0, -2000.5001), Err(outside));
    assert_eq!(fix_point(f32::MAX, f32::INFINITY), Err(not_finite));
    assert_eq!(fix_point(f32::NAN, 2000.5), Err(not_finite));
}

/// Totals and centre. Sums over cells as points would have the run's centre at (3, 3); totals of the box round the L, six cells.
#[test]
fn regions() {
    let run = totals([6, 63, 63, 468, 882, 444]);
    assert_eq!(region_totals(&runs_of(&[[3, 2, 3]])), Ok(run));
    assert_eq!(outline_centroid(run), Ok(Centre { x: 4, y: 4 }));

    let l_shape = totals([8, 30, 18, 112, 72, 40]);
    let runs = runs_of(&[[0, 0, 3], [1, 0, 1]]);
    assert_eq!(region_totals(&runs), Ok(l_shape));
    assert_eq!(outline_centroid(l_shape), Ok(Centre { x: 1, y: 1 }));

    let nothing = totals([0; 6]);
    assert_eq!(region_totals(&[]), Ok(nothing));
    assert_eq!(mask_totals(&[]), Ok(nothing));
    assert_eq!(outline_centroid(nothing), Err(Refusal::NoArea));
}

#[test]
fn region_refusals() {
    let row_1024 = region_totals(&runs_of(&[[3, 2, 3], [1024, 0, 1]]));
    assert_eq!(row_1024, Err(RegionRefusal::BadRun(1)));
    let overlap = region_totals(&runs_of(&[[3, 2, 3], [4, 0, 1], [4, 0, 1]]));
    assert_eq!(overlap, Err(RegionRefusal::OutOfOrder(2)));
    let many = region_totals(&runs_of(&[[3, 2, 3]; 4097]));
    assert_eq!(many, Err(RegionRefusal::TooManyRuns));
}

#[test]
fn mask_refusals() {
    let mut list = runs_of(&[[7, 8, 9]; 4097]);
    let before = list.clone();
    for length in [15, 17, 16_400] {
        let words = vec![u64::MAX; length];
        assert_eq!(mask_totals(&words), Err(Refusal::WrongMaskLength));
        assert_eq!(mask_runs(&words, &mut list), Err(Refusal::WrongMaskLength));
    }
    let mut words = vec![0x5555_5555_5555_5555; 8 * 16];
    assert_eq!(
        mask_runs(&words, &mut list[..4095]),
        Err(Refusal::TooManyRuns)
    );
    words.extend([1; 16]);
    assert_eq!(mask_runs(&words, &mut list), Err(Refusal::TooManyRuns));
    assert!(list == before);
}

#[test]
fn refusals() {
    let square = [-2000, -2000, 2000, -2000, 2000, 2000, -2000, 2000];
    let doubled = affine_map([2, 0, 0, 2, 0, 0]);
    let of_rounds = |n| outline_totals(&square.repeat(n)).expect("accepted");
    assert!(map_totals(doubled, of_rounds(244)).is_ok());
    assert_eq!(
        map_totals(doubled, of_rounds(245)),
        Err(Refusal::MappedOutsideLimits)
    );

    assert_eq!(
        outline_totals(&[0, 0, 2001, 0, 0, 1]),
        Err(Refusal::CoordinateOutsideLimits)
    );
    assert_eq!(outline_totals(&[0, 0, 1, 0, 0]), Err(Refusal::WrongLength));
    assert_eq!(
        map_totals(affine_map([3, 0, 0, 1, 0, 0]), of_rounds(1)),
        Err(Refusal::MapOutsideLimits)
    );
    assert_eq!(
        map_totals(doubled, totals([i64::MIN; 6])),
        Err(Refusal::TotalsOutsideBounds)
    );
    assert_eq!(
        outline_centroid(totals([i64::MIN; 6])),
        Err(Refusal::CentreOutsideLimits)
    );
}
