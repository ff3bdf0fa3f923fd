//! Safe functions over the proved static library `exports`. The numbers of refusals, the units and the order of the totals are document 01's; masks, pairs of walks, a receiver's fixes and third moments are document 02's.
//!
//! A cell is its ground: the cell in column x of row y is the square from (x, y) to (x + 1, y + 1). So cells answer the `Totals` that an outline does (document 02, CR 2), and `outline_centroid` gives their centre. The functions of before, `region_sums` and `mask_sums`, answered sums over cells as points; they are gone.
//!
//! The proofs end at the static library: that the declarations in `linked` fit it is tested (`tests/compare`) and not proved.
mod linked;
mod refusal;
mod third_moments;

use refusal::other_version;
pub use refusal::{Refusal, RegionRefusal};
pub use third_moments::{third_moments, third_moments_into, ThirdTotals};

/// The six totals of an outline, or of the ground under cells, in decimetres to the power 2, 3 and 4: multiples of the area, of the first and of the second moments.
#[derive(Clone, Copy, Debug, PartialEq, Eq)]
pub struct Totals {
    pub a2: i64,
    pub x6: i64,
    pub y6: i64,
    pub xx12: i64,
    pub xy24: i64,
    pub yy12: i64,
}

/// Two walks of one plot beside each other. Distances are squared, in square decimetres, and are those between points: edges do not count for them.
#[derive(Clone, Copy, Debug, PartialEq, Eq)]
pub struct Comparison<'a> {
    /// The totals of the first walk less those of the second.
    pub differences: Totals,
    /// The greatest distance from a point of the first to the nearest point of the second, squared. The root of it is the directed Hausdorff distance.
    pub first_to_second: i64,
    /// The same from the points of the second to the first.
    pub second_to_first: i64,
    /// The caller's own list, not a copy: that of more points, or the first where both have as many.
    pub longer: &'a [i32],
}

/// A point, in whole decimetres east and north: x and y as a list of points has them.
#[derive(Clone, Copy, Debug, PartialEq, Eq)]
pub struct Point {
    pub x: i32,
    pub y: i32,
}

/// (x, y) goes to (a x + b y + e, g x + h y + f).
#[derive(Clone, Copy, Debug, PartialEq, Eq)]
pub struct AffineMap {
    pub a: i32,
    pub b: i32,
    pub g: i32,
    pub h: i32,
    pub e: i32,
    pub f: i32,
}

/// A centre, in decimetres east and north.
#[derive(Clone, Copy, Debug, PartialEq, Eq)]
pub struct Centre {
    pub x: i64,
    pub y: i64,
}

/// As many cells of a row as `length`, from the column `first` on, all counted from 0. Laid out as the library reads it.
#[derive(Clone, Copy, Debug, PartialEq, Eq)]
#[repr(C)]
pub struct Run {
    pub row: u32,
    pub first: u32,
    pub length: u32,
}

/// The answer of a call whose buffer is too short. No refusal of document 01 or 02 has this number.
pub const SHORT_BUFFER: u32 = 100;

// ---- the library's own form: a number, and values at the front of the caller's buffer

/// Writes the six totals to the first six entries, zeros with a refusal. A shorter buffer stays as it was, and the answer is `SHORT_BUFFER`.
pub fn outline_totals_into(points: &[i32], out: &mut [i64]) -> u32 {
    // Sound: the library asks nothing of its caller but that each pointer and length are those of a slice.
    unsafe {
        linked::mavrihkel_outline_totals(points.as_ptr(), points.len(), out.as_mut_ptr(), out.len())
    }
}

/// Writes ten values, in the same way: the six differences of totals, the two squared distances, which list is handed back (0 the first, 1 the second) and how many of its numbers.
pub fn compare_walks_into(first: &[i32], second: &[i32], out: &mut [i64]) -> u32 {
    // Sound, as above: the library only reads the two lists, and they may overlap.
    unsafe {
        linked::mavrihkel_compare_walks(
            first.as_ptr(),
            first.len(),
            second.as_ptr(),
            second.len(),
            out.as_mut_ptr(),
            out.len(),
        )
    }
}

/// Writes the x and y of a fix's point to the first two entries, in the same way.
pub fn fix_point_into(east: f32, north: f32, out: &mut [i64]) -> u32 {
    // Sound, as above: every float is taken, whatever its bits.
    unsafe { linked::mavrihkel_fix_point(east, north, out.as_mut_ptr(), out.len()) }
}

/// Writes the six mapped totals, in the same way.
pub fn map_totals_into(m: AffineMap, t: Totals, out: &mut [i64]) -> u32 {
    // Sound, as above.
    unsafe {
        linked::mavrihkel_map_totals(
            m.a,
            m.b,
            m.g,
            m.h,
            m.e,
            m.f,
            t.a2,
            t.x6,
            t.y6,
            t.xx12,
            t.xy24,
            t.yy12,
            out.as_mut_ptr(),
            out.len(),
        )
    }
}

/// Writes the centre's x and y to the first two entries, in the same way.
pub fn outline_centroid_into(t: Totals, out: &mut [i64]) -> u32 {
    // Sound, as above.
    unsafe {
        linked::mavrihkel_outline_centroid(
            t.a2,
            t.x6,
            t.y6,
            t.xx12,
            t.xy24,
            t.yy12,
            out.as_mut_ptr(),
            out.len(),
        )
    }
}

/// Writes the six totals of the ground under the runs to the first six entries and an index to the seventh, in the same way: with 6 and 7 that of the first run that breaks that rule, else 0.
pub fn region_totals_into(runs: &[Run], out: &mut [i64]) -> u32 {
    // Sound, as above.
    unsafe {
        linked::mavrihkel_region_totals(runs.as_ptr(), runs.len(), out.as_mut_ptr(), out.len())
    }
}

/// Writes the six totals of the ground under a mask's marked cells to the first six entries, in the same way.
pub fn mask_totals_into(words: &[u64], out: &mut [i64]) -> u32 {
    // Sound, as above.
    unsafe {
        linked::mavrihkel_mask_totals(words.as_ptr(), words.len(), out.as_mut_ptr(), out.len())
    }
}

/// Writes a mask's runs to the front of the list, and how many there are to the first entry of `out`, 0 with a refusal. The list stays as it was with a refusal and with `SHORT_BUFFER`.
pub fn mask_runs_into(words: &[u64], runs: &mut [Run], out: &mut [i64]) -> u32 {
    // Sound, as above.
    unsafe {
        linked::mavrihkel_mask_runs(
            words.as_ptr(),
            words.len(),
            runs.as_mut_ptr(),
            runs.len(),
            out.as_mut_ptr(),
            out.len(),
        )
    }
}

// ---- the same as results

fn totals_of(v: [i64; 6]) -> Totals {
    let [a2, x6, y6, xx12, xy24, yy12] = v;
    Totals {
        a2,
        x6,
        y6,
        xx12,
        xy24,
        yy12,
    }
}

fn totals_or_refusal(number: u32, v: [i64; 6]) -> Result<Totals, Refusal> {
    match Refusal::of(number) {
        Some(refusal) => Err(refusal),
        None => Ok(totals_of(v)),
    }
}

/// The six totals of an outline: x and y in turn, in decimetres.
pub fn outline_totals(points: &[i32]) -> Result<Totals, Refusal> {
    let mut v = [0; 6];
    let number = outline_totals_into(points, &mut v);
    totals_or_refusal(number, v)
}

/// Two walks of one plot: the differences of their totals, how far apart their points lie, and the longer of the two. A list is refused as by `outline_totals`, the first before the second.
pub fn compare_walks<'a>(first: &'a [i32], second: &'a [i32]) -> Result<Comparison<'a>, Refusal> {
    let mut v = [0; 10];
    let number = compare_walks_into(first, second, &mut v);
    let [six @ .., first_to_second, second_to_first, list, length] = v;
    match Refusal::of(number) {
        Some(refusal) => Err(refusal),
        None => Ok(Comparison {
            differences: totals_of(six),
            first_to_second,
            second_to_first,
            longer: &[first, second][list as usize][..length as usize],
        }),
    }
}

/// The point that a fix of a receiver becomes: the exact value of each float, in decimetres, rounded to a whole number, halves up (towards east and north); minus zero is 0. Refused with 33 where a float is infinite or not a number, else with 1 where x or y is outside -2,000 to 2,000: -2,000.5 becomes -2,000, and 2,000.5 is refused.
pub fn fix_point(east: f32, north: f32) -> Result<Point, Refusal> {
    let mut v = [0; 2];
    let number = fix_point_into(east, north, &mut v);
    let [x, y] = v.map(|z| z as i32);
    match Refusal::of(number) {
        Some(refusal) => Err(refusal),
        None => Ok(Point { x, y }),
    }
}

/// The totals of the mapped outline, from those of the outline.
pub fn map_totals(m: AffineMap, t: Totals) -> Result<Totals, Refusal> {
    let mut v = [0; 6];
    let number = map_totals_into(m, t, &mut v);
    totals_or_refusal(number, v)
}

/// The centre of an outline, of a sheet or of cells, by its totals: whole decimetres, halves rounded up.
pub fn outline_centroid(t: Totals) -> Result<Centre, Refusal> {
    let mut v = [0; 2];
    let number = outline_centroid_into(t, &mut v);
    match Refusal::of(number) {
        Some(refusal) => Err(refusal),
        None => Ok(Centre { x: v[0], y: v[1] }),
    }
}

/// The six totals of the ground under the cells of the runs; all of them are 0 where there is no run. A refusal with 6 or 7 names the first run that breaks that rule.
pub fn region_totals(runs: &[Run]) -> Result<Totals, RegionRefusal> {
    let mut v = [0; 7];
    let number = region_totals_into(runs, &mut v);
    let [six @ .., index] = v;
    match number {
        0 => Ok(totals_of(six)),
        6 => Err(RegionRefusal::BadRun(index as usize)),
        7 => Err(RegionRefusal::OutOfOrder(index as usize)),
        8 => Err(RegionRefusal::TooManyRuns),
        _ => other_version(number),
    }
}

/// The six totals of the ground under a mask's marked cells: 16 words a row, rows 0 upwards; bit i of a row's word w, from the lowest, is column 64w + i. Refused with 31 where the number of words is no multiple of 16 or is over 16,384.
pub fn mask_totals(words: &[u64]) -> Result<Totals, Refusal> {
    let mut v = [0; 6];
    let number = mask_totals_into(words, &mut v);
    totals_or_refusal(number, v)
}

/// Writes the longest possible runs of a mask's marked cells to the front of the list, in order, and gives how many there are. The runs behind them stay as they were, and so do all with a refusal: 31 as for the totals, or 8 where there are more than 4,096 runs or more than the list holds. A list of 4,096 never is too short.
pub fn mask_runs(words: &[u64], runs: &mut [Run]) -> Result<usize, Refusal> {
    let mut v = [0; 1];
    let number = mask_runs_into(words, runs, &mut v);
    match Refusal::of(number) {
        Some(refusal) => Err(refusal),
        None => Ok(v[0] as usize),
    }
}
