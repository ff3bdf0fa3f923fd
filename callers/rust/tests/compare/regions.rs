use crate::inputs::{damaged_region, region, Random};
use crate::{narrow, reference, runs_of, Met};
use mavrihkel::{outline_totals, region_totals, region_totals_into, RegionRefusal};

fn compare(runs: &[[u32; 3]], met: &mut Met) {
    let (number, wanted, index) = reference::region_call(runs);
    let mut out = [-1; 7];
    let named = format!("{} runs, {:?} ..", runs.len(), &runs[..runs.len().min(4)]);
    assert_eq!(
        region_totals_into(&runs_of(runs), &mut out),
        number,
        "{named}"
    );
    assert_eq!(out[..6], narrow(wanted), "{named}");
    assert_eq!(out[6], index as i64, "{named}");
    met.count(number);
}

#[test]
fn every_short_length() {
    let mut random = Random::seeded(8);
    let mut met = Met::default();
    for count in 0..=60 {
        for _ in 0..20 {
            compare(&region(&mut random, count), &mut met);
            compare(&damaged_region(&mut random, count), &mut met);
        }
    }
    met.each_of(&[0, 6, 7], 200);
}

#[test]
fn lists_of_every_size() {
    let mut random = Random::seeded(9);
    let mut met = Met::default();
    for count in (100..=4000).step_by(100) {
        compare(&region(&mut random, count), &mut met);
        compare(&damaged_region(&mut random, count), &mut met);
    }
    met.each_of(&[0, 6, 7], 5);
}

/// 4,096 runs are allowed, 4,097 are not, whatever else is wrong with them.
#[test]
fn lists_at_the_limit() {
    let mut random = Random::seeded(10);
    let mut met = Met::default();
    for _ in 0..20 {
        for count in [4095, 4096, 4097] {
            compare(&region(&mut random, count), &mut met);
            compare(&damaged_region(&mut random, count), &mut met);
        }
    }
    met.each_of(&[0, 6, 7, 8], 5);
}

#[test]
fn each_number_of_one_run_at_its_limits() {
    let mut met = Met::default();
    for row in [0, 1, 1023, 1024, u32::MAX] {
        for first in [0, 1, 1022, 1023, 1024, 1025, u32::MAX] {
            for length in [0, 1, 2, 1023, 1024, 1025, u32::MAX] {
                compare(&[[row, first, length]], &mut met);
            }
        }
    }
    met.each_of(&[0, 6], 20);
}

/// Every pair of runs of a small grid: apart, touching, overlapping, equal, and out of order.
#[test]
fn every_small_pair() {
    let mut met = Met::default();
    let small = |n: u32| [n / 12, n % 4, n / 4 % 3 + 1];
    for n in 0..24 {
        for m in 0..24 {
            compare(&[small(n), small(m)], &mut met);
        }
    }
    met.each_of(&[0, 7], 200);
}

/// A run that breaks 6 decides wherever it stands, before or behind one that breaks 7.
#[test]
fn six_before_seven() {
    let mut met = Met::default();
    let (sound, early, bad) = ([5, 10, 3], [5, 12, 1], [1024, 0, 1]);
    compare(&[sound, early, bad], &mut met);
    compare(&[bad, sound, early], &mut met);
    compare(&[sound, bad, early], &mut met);
    compare(&[sound, early, sound], &mut met);
    met.each_of(&[6, 7], 1);
}

/// The first run is sound, the next two break 7, the last two break 6.
const FIVE_RUNS: [[u32; 3]; 5] = [[5, 0, 3], [5, 2, 1], [4, 0, 1], [1024, 0, 1], [6, 0, 0]];

/// The first run that breaks the rule of the number, though one before it breaks the other rule and one behind it the same.
#[test]
fn the_first_run_that_breaks_the_rule() {
    let told = |runs: &[[u32; 3]]| region_totals(&runs_of(runs)).err();
    assert_eq!(told(&FIVE_RUNS), Some(RegionRefusal::BadRun(3)));
    assert_eq!(told(&FIVE_RUNS[3..]), Some(RegionRefusal::BadRun(0)));
    assert_eq!(told(&FIVE_RUNS[..3]), Some(RegionRefusal::OutOfOrder(1)));
    assert_eq!(told(&FIVE_RUNS[1..3]), Some(RegionRefusal::OutOfOrder(1)));
    assert_eq!(told(&FIVE_RUNS[..1]), None);
    let mut met = Met::default();
    for from in 0..5 {
        for to in from..=5 {
            compare(&FIVE_RUNS[from..to], &mut met);
        }
    }
    met.each_of(&[0, 6, 7], 3);
}

/// Damaged lists in which another choice of the run would show: one behind it breaks the rule of the number too, or one before it breaks 7 where the number is 6.
#[test]
fn several_runs_at_fault() {
    let mut random = Random::seeded(23);
    let mut met = Met::default();
    let (mut two_of_6, mut two_of_7, mut seven_before_6) = (0, 0, 0);
    for _ in 0..4_000 {
        let count = random.between(2, 12) as usize;
        let runs = damaged_region(&mut random, count);
        compare(&runs, &mut met);
        let (six, seven) = (reference::breaking_6(&runs), reference::breaking_7(&runs));
        two_of_6 += u32::from(six.len() > 1);
        two_of_7 += u32::from(six.is_empty() && seven.len() > 1);
        seven_before_6 += u32::from(!six.is_empty() && !seven.is_empty() && seven[0] < six[0]);
    }
    met.each_of(&[0, 6, 7], 50);
    let least = two_of_6.min(two_of_7).min(seven_before_6);
    assert!(least >= 200, "{two_of_6}, {two_of_7}, {seven_before_6}");
}

/// 4,096 runs of which the last alone breaks a rule: the greatest index.
#[test]
fn the_last_of_4096_runs() {
    let told = |runs: &[[u32; 3]]| region_totals(&runs_of(runs)).err();
    let mut runs: Vec<[u32; 3]> = (0..4096).map(|i| [i / 4, i % 4, 1]).collect();
    runs[4095] = [1023, 3, 0];
    assert_eq!(told(&runs), Some(RegionRefusal::BadRun(4095)));
    runs[4095] = [1023, 0, 1];
    assert_eq!(told(&runs), Some(RegionRefusal::OutOfOrder(4095)));
}

/// The largest totals: the whole grid, in full rows and in quarters; and those of an outline round it.
#[test]
fn the_whole_grid() {
    let mut met = Met::default();
    let rows: Vec<[u32; 3]> = (0..1024).map(|row| [row, 0, 1024]).collect();
    let quarters: Vec<[u32; 3]> = (0..4096).map(|i| [i / 4, i % 4 * 256, 256]).collect();
    compare(&rows, &mut met);
    compare(&quarters, &mut met);
    met.each_of(&[0], 2);
    let outline = outline_totals(&[0, 0, 1024, 0, 1024, 1024, 0, 1024]);
    assert_eq!(region_totals(&runs_of(&rows)).ok(), outline.ok());
}

/// The ground under a run is a rectangle: the list call answers the same for its corners.
#[test]
fn one_run_and_the_outline_round_it() {
    let mut random = Random::seeded(16);
    for _ in 0..2_000 {
        let run = region(&mut random, 1);
        let [y, west, length] = run[0].map(|z| z as i32);
        let east = west + length;
        let corners = [west, y, east, y, east, y + 1, west, y + 1];
        let outline = outline_totals(&corners).expect("an outline");
        assert_eq!(region_totals(&runs_of(&run)), Ok(outline), "{run:?}");
    }
}
