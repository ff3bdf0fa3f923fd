//! The call on a fix, on a list of them one after another. "same steps" is the rule in whole numbers, by the bits of each float, as in the library; "floor" adds a half in 64 bits, where that gives the same whole number for every float, and rounds down. Both are called for each fix, as the library is; in the last column "floor" stands in the loop itself.
use crate::{agree, least_times, Call, Numbers};
use mavrihkel::fix_point_into;

const FIXES: usize = 1_000_000;

/// East and north.
type Fix = [f32; 2];
type OneFix = Call<Fix, 2>;

fn library(fix: &Fix, out: &mut [i64; 2]) -> u32 {
    fix_point_into(fix[0], fix[1], out)
}

/// Writes the point of two coordinates; or zeros, where one of them has a refusal: 33 of either comes before 1.
fn point_of(x: Result<i64, u32>, y: Result<i64, u32>, out: &mut [i64; 2]) -> u32 {
    *out = [0; 2];
    match (x, y) {
        (Ok(x), Ok(y)) => {
            *out = [x, y];
            0
        }
        (Err(33), _) | (_, Err(33)) => 33,
        _ => 1,
    }
}

/// A float's whole number by its bits, or its refusal.
fn by_bits(v: f32) -> Result<i64, u32> {
    let bits = v.to_bits();
    let negative = v.is_sign_negative();
    let exponent = bits >> 23 & 255;
    if exponent == 255 {
        return Err(33);
    }
    if exponent > 149 {
        return Err(1);
    }
    if exponent < 126 {
        return Ok(0);
    }
    let digits = bits & 0x7f_ffff | 0x80_0000;
    let half = 1 << (149 - exponent);
    let size = i64::from((digits + half - u32::from(negative)) >> (150 - exponent));
    if size > 2000 {
        return Err(1);
    }
    Ok(if negative { -size } else { size })
}

fn by_floor(v: f32) -> Result<i64, u32> {
    if !v.is_finite() {
        return Err(33);
    }
    let whole = (f64::from(v) + 0.5).floor();
    if whole.abs() > 2000.0 {
        return Err(1);
    }
    Ok(whole as i64)
}

#[inline(never)]
fn same_steps(fix: &Fix, out: &mut [i64; 2]) -> u32 {
    point_of(by_bits(fix[0]), by_bits(fix[1]), out)
}

#[inline(never)]
fn floor(fix: &Fix, out: &mut [i64; 2]) -> u32 {
    floor_inside(fix, out)
}

#[inline(always)]
fn floor_inside(fix: &Fix, out: &mut [i64; 2]) -> u32 {
    point_of(by_floor(fix[0]), by_floor(fix[1]), out)
}

/// How many of the fixes are refused, and the sums of x and y over the others.
fn over(fixes: &[Fix], sums: &mut [i64; 2], call: impl Fn(&Fix, &mut [i64; 2]) -> u32) -> u32 {
    *sums = [0; 2];
    let mut point = [0; 2];
    let mut refused = 0;
    for fix in fixes {
        refused += u32::from(call(fix, &mut point) != 0);
        sums[0] += point[0];
        sums[1] += point[1];
    }
    refused
}

/// A fix anywhere within a reach, in 1,024ths of a decimetre: some floats are halves.
fn fixes(reach: u32) -> Vec<Fix> {
    let mut numbers = Numbers(12345);
    let mut coordinate = || {
        let whole = numbers.below(2 * reach) as f32 - reach as f32;
        whole + numbers.below(1024) as f32 / 1024.0
    };
    (0..FIXES).map(|_| [coordinate(), coordinate()]).collect()
}

/// All agree on each fix, on the limits, and on refusals: 33 before 1, by either float.
fn agree_on_each(calls: &[OneFix]) {
    for fix in fixes(2000) {
        agree(calls, &fix, 0);
    }
    for v in [-2000.5, 2_000.499_9, -0.5, 0.5, -0.0, 0.499_999_97, 1e-45] {
        agree(calls, &[v, -v.abs()], 0);
        agree(calls, &[-v.abs(), v], 0);
    }
    for far in [2000.5, -2_000.500_2, 4_294_967_296.0, f32::MAX, f32::MIN] {
        agree(calls, &[far, 0.0], 1);
        agree(calls, &[0.0, far], 1);
        for v in [f32::INFINITY, f32::NEG_INFINITY, f32::NAN] {
            agree(calls, &[v, far], 33);
            agree(calls, &[far, v], 33);
        }
    }
}

pub fn table() {
    agree_on_each(&[library, same_steps, floor]);
    let calls: [Call<[Fix], 2>; 4] = [
        |fixes, sums| over(fixes, sums, library),
        |fixes, sums| over(fixes, sums, same_steps),
        |fixes, sums| over(fixes, sums, floor),
        |fixes, sums| over(fixes, sums, floor_inside),
    ];
    println!("1,000,000 fixes  library/same steps  library/floor  library/floor in the loop");
    for (told, reach) in [("all accepted", 2000), ("about half refused", 2828)] {
        let fixes = fixes(reach);
        let refused = calls[0](&fixes, &mut [0; 2]);
        agree(&calls, &fixes, refused);
        let [proved, same, floor, inside] = least_times(calls, &fixes, 1);
        println!(
            "{told:18}  {:18.2}  {:13.2}  {:25.2}",
            proved / same,
            proved / floor,
            proved / inside
        );
    }
}
