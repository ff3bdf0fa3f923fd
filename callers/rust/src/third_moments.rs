//! Third moments: document 02, CR 10.
use crate::{linked, Refusal};

/// The four third moments of an outline, about the peg, in decimetres to the power 5: multiples of integrals, by falling power of x. Walked backwards, an outline has all four with the other sign.
#[derive(Clone, Copy, Debug, PartialEq, Eq)]
pub struct ThirdTotals {
    /// 20 times the integral of x³.
    pub xxx20: i64,
    /// 60 times the integral of x²y.
    pub xxy60: i64,
    /// 60 times the integral of xy².
    pub xyy60: i64,
    /// 20 times the integral of y³.
    pub yyy20: i64,
}

/// Writes the four totals to the first four entries, zeros with a refusal. A shorter buffer stays as it was, and the answer is `SHORT_BUFFER`.
pub fn third_moments_into(points: &[i32], out: &mut [i64]) -> u32 {
    // Sound: the library asks nothing of its caller but that each pointer and length are those of a slice.
    unsafe {
        linked::mavrihkel_third_moments(points.as_ptr(), points.len(), out.as_mut_ptr(), out.len())
    }
}

/// The third moments of an outline: x and y in turn, in decimetres. Refused as by `outline_totals`, and then with 35 where a coordinate is outside -500 to 500: with coordinates to 2,000 the sums would not fit 64 bits.
pub fn third_moments(points: &[i32]) -> Result<ThirdTotals, Refusal> {
    let mut v = [0; 4];
    let number = third_moments_into(points, &mut v);
    let [xxx20, xxy60, xyy60, yyy20] = v;
    match Refusal::of(number) {
        Some(refusal) => Err(refusal),
        None => Ok(ThirdTotals {
            xxx20,
            xxy60,
            xyy60,
            yyy20,
        }),
    }
}
