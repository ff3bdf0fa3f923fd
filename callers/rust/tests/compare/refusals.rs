//! Refusals as numbers, as texts and as errors.
use crate::runs_of;
use mavrihkel::{outline_centroid, outline_totals, region_totals, Centre, Refusal, RegionRefusal};
use std::collections::BTreeSet;
use std::error::Error;
use std::fs;
use std::path::Path;

const BUT_OF_REGIONS: [Refusal; 11] = [
    Refusal::CoordinateOutsideLimits,
    Refusal::WrongLength,
    Refusal::MapOutsideLimits,
    Refusal::TotalsOutsideBounds,
    Refusal::MappedOutsideLimits,
    Refusal::TooManyRuns,
    Refusal::CentreOutsideLimits,
    Refusal::NoArea,
    Refusal::WrongMaskLength,
    Refusal::NotFinite,
    Refusal::TooFarForThirdMoments,
];
const OF_REGIONS: [RegionRefusal; 3] = [
    RegionRefusal::BadRun(4),
    RegionRefusal::OutOfOrder(5),
    RegionRefusal::TooManyRuns,
];

#[test]
fn numbers() {
    assert_eq!(
        BUT_OF_REGIONS.map(Refusal::number),
        [1, 2, 3, 4, 5, 8, 11, 27, 31, 33, 35]
    );
    assert_eq!(OF_REGIONS.map(RegionRefusal::number), [6, 7, 8]);
}

/// What every refusal says before its meaning, the meaning, and its number.
fn texts() -> Vec<(String, String, u32)> {
    let others = BUT_OF_REGIONS.iter().map(|r| (r.to_string(), r.number()));
    let regions = OF_REGIONS.iter().map(|r| (r.to_string(), r.number()));
    others
        .chain(regions)
        .map(|(text, number)| {
            let (before, meaning) = text.split_once(": ").expect("a meaning");
            (before.to_string(), meaning.to_string(), number)
        })
        .collect()
}

#[test]
fn texts_begin_with_the_number_and_the_index() {
    let wanted = [
        "refusal 1",
        "refusal 2",
        "refusal 3",
        "refusal 4",
        "refusal 5",
        "refusal 8",
        "refusal 11",
        "refusal 27",
        "refusal 31",
        "refusal 33",
        "refusal 35",
        "refusal 6 (run 4, counted from 0)",
        "refusal 7 (run 5, counted from 0)",
        "refusal 8",
    ];
    let begin: Vec<String> = texts().into_iter().map(|(before, _, _)| before).collect();
    assert_eq!(begin, wanted);
}

/// The pages for readers: README.md and those of docs/.
fn pages() -> String {
    let root = Path::new(env!("CARGO_MANIFEST_DIR")).join("../..");
    let docs = fs::read_dir(root.join("docs")).expect("docs/ is there");
    docs.map(|entry| entry.expect("an entry of docs/").path())
        .filter(|path| path.extension().is_some_and(|ending| ending == "md"))
        .chain([root.join("README.md")])
        .map(|path| fs::read_to_string(path).expect("a page is text"))
        .collect()
}

/// Of the two causes of 8 that the table names, the call on runs meets the first alone.
const SECOND_CAUSE_OF_8: &str = ", or more than the list to be filled holds";

/// Each meaning is another one, and is that of the number's row in the table of refusals.
#[test]
fn meanings_are_those_of_the_table() {
    let pages = pages();
    let mut meanings = BTreeSet::new();
    for (_, meaning, number) in texts() {
        let row = format!("\n| {number} | {meaning} | ");
        let first_cause = format!("\n| {number} | {meaning}{SECOND_CAUSE_OF_8} | ");
        assert!(
            pages.contains(&row) || pages.contains(&first_cause),
            "no page has the row {row}"
        );
        assert!(meanings.insert(meaning), "{row} has another's meaning");
    }
}

fn centre_of(points: &[i32]) -> Result<Centre, Box<dyn Error>> {
    Ok(outline_centroid(outline_totals(points)?)?)
}

fn centre_of_cells(runs: &[[u32; 3]]) -> Result<Centre, Box<dyn Error>> {
    Ok(outline_centroid(region_totals(&runs_of(runs))?)?)
}

/// The question mark hands a refusal on as an error, with its text and the refusal itself.
#[test]
fn errors() {
    let centre = centre_of(&[2, 0, 10, 4, 8, 8, 0, 4]).expect("accepted");
    assert_eq!(centre, Centre { x: 5, y: 4 });
    let odd = centre_of(&[0, 0, 1, 0, 0]).expect_err("an odd length");
    assert_eq!(odd.downcast_ref(), Some(&Refusal::WrongLength));
    assert_eq!(odd.to_string(), Refusal::WrongLength.to_string());
    let no_area = centre_of(&[5, 7, 5, 7, 5, 7]).expect_err("no area");
    assert_eq!(no_area.downcast_ref(), Some(&Refusal::NoArea));

    let centre = centre_of_cells(&[[3, 2, 3]]).expect("accepted");
    assert_eq!(centre, Centre { x: 4, y: 4 });
    let no_cells = centre_of_cells(&[]).expect_err("no cells");
    assert_eq!(no_cells.downcast_ref(), Some(&Refusal::NoArea));
    let bad = centre_of_cells(&[[3, 2, 3], [1024, 0, 1]]).expect_err("row 1,024");
    assert_eq!(bad.downcast_ref(), Some(&RegionRefusal::BadRun(1)));
    assert_eq!(bad.to_string(), RegionRefusal::BadRun(1).to_string());
}
