//! Third moments in 128-bit integers, by formula 11 of source document 001: not by the brackets of document 02.
use crate::reference::{list_call, points_of, Outcome};

/// What each total is a multiple of: the powers of x and y in the integral.
const MULTIPLES: [(i128, (u32, u32)); 4] = [(20, (3, 0)), (60, (2, 1)), (60, (1, 2)), (20, (0, 3))];

fn factorial(n: u32) -> i128 {
    (1..=i128::from(n)).product()
}

fn choose(n: u32, k: u32) -> i128 {
    factorial(n) / (factorial(k) * factorial(n - k))
}

/// A multiple of formula 11 for the edge from one point to the next: what belongs to that edge of the moment of x to the power p, y to the power q.
fn formula_11(
    multiple: i128,
    (p, q): (u32, u32),
    (x, y): (i128, i128),
    (next_x, next_y): (i128, i128),
) -> i128 {
    let mut sum = 0;
    for j in 0..=p {
        for k in 0..=q {
            let numerator = multiple * choose(p, j) * choose(q, k) * factorial(p + q);
            let denominator = choose(p + q, j + k) * factorial(p + q + 2);
            assert_eq!(numerator % denominator, 0, "the multiple clears fractions");
            sum += numerator / denominator
                * (x.pow(j) * next_x.pow(p - j) * y.pow(k) * next_y.pow(q - k));
        }
    }
    (next_y * x - y * next_x) * sum
}

/// 2 and 1 as for the six totals, then 35; the four totals by falling power of x.
pub fn third_moments_call(numbers: &[i32]) -> Outcome<4> {
    let (number, _) = list_call(numbers);
    if number != 0 {
        return (number, [0; 4]);
    }
    if numbers.iter().any(|z| z.abs() > 500) {
        return (35, [0; 4]);
    }
    let points = points_of(numbers);
    let next = points.iter().cycle().skip(1);
    let edges: Vec<_> = points.iter().zip(next).collect();
    let total = |(multiple, powers)| {
        let parts = edges
            .iter()
            .map(|(&start, &end)| formula_11(multiple, powers, start, end));
        parts.sum()
    };
    (0, MULTIPLES.map(total))
}
