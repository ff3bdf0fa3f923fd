//! Document 01, and two walks, fixes, cells and masks as document 02 has them, in 128-bit integers, written from the papers: each outcome is a number, 0 if accepted, and its values, zeros with a refusal.

pub type Outcome<const N: usize> = (u32, [i128; N]);

fn refused<const N: usize>(number: u32) -> Outcome<N> {
    (number, [0; N])
}

/// The outline bounds, by size.
pub const BOUNDS: [i128; 6] = [
    8_192_000_000,
    32_768_000_000_000,
    32_768_000_000_000,
    98_304_000_000_000_000,
    196_608_000_000_000_000,
    98_304_000_000_000_000,
];

/// The limit of a mapped total, and of a total that a centre is wanted of.
pub const LIMIT: i128 = 1_000_000_000_000_000_000;

/// The edge terms of (x, y) to (p, q), in the order of the table.
fn edge((x, y): (i128, i128), (p, q): (i128, i128)) -> [i128; 6] {
    let c = x * q - p * y;
    [
        c,
        (x + p) * c,
        (y + q) * c,
        (x * x + x * p + p * p) * c,
        (2 * x * y + x * q + p * y + 2 * p * q) * c,
        (y * y + y * q + q * q) * c,
    ]
}

/// Adds the edge terms round an outline, the closing edge too.
fn add_outline(totals: &mut [i128; 6], points: &[(i128, i128)]) {
    for (k, &start) in points.iter().enumerate() {
        let end = points[(k + 1) % points.len()];
        for (total, term) in totals.iter_mut().zip(edge(start, end)) {
            *total += term;
        }
    }
}

pub fn points_of(numbers: &[i32]) -> Vec<(i128, i128)> {
    numbers
        .chunks_exact(2)
        .map(|p| (i128::from(p[0]), i128::from(p[1])))
        .collect()
}

pub fn list_call(numbers: &[i32]) -> Outcome<6> {
    let points = points_of(numbers);
    if numbers.len() % 2 != 0 || !(3..=1024).contains(&points.len()) {
        return refused(2);
    }
    let limits = -2000..=2000;
    if !points
        .iter()
        .all(|(x, y)| limits.contains(x) && limits.contains(y))
    {
        return refused(1);
    }
    let mut totals = [0; 6];
    add_outline(&mut totals, &points);
    (0, totals)
}

/// The squared distance from one walk's points to another: the greatest of those from each point to the nearest of the other.
fn distance(from: &[(i128, i128)], to: &[(i128, i128)]) -> i128 {
    let squared = |(x, y): (i128, i128), (p, q): (i128, i128)| (x - p).pow(2) + (y - q).pow(2);
    let to_nearest = |&p| to.iter().map(|&q| squared(p, q)).min();
    let farthest = from.iter().filter_map(to_nearest).max();
    farthest.expect("both walks have points")
}

/// The six differences, the two distances, which list is handed back (0 the first, 1 the second) and how many of its numbers.
pub fn walks_call(first: &[i32], second: &[i32]) -> Outcome<10> {
    let (number, of_first) = list_call(first);
    if number != 0 {
        return refused(number);
    }
    let (number, of_second) = list_call(second);
    if number != 0 {
        return refused(number);
    }
    let (first, second) = (points_of(first), points_of(second));
    let second_is_longer = second.len() > first.len();
    let longer = if second_is_longer { &second } else { &first };
    let mut values = [0; 10];
    for k in 0..6 {
        values[k] = of_first[k] - of_second[k];
    }
    values[6] = distance(&first, &second);
    values[7] = distance(&second, &first);
    values[8] = i128::from(second_is_longer);
    values[9] = 2 * longer.len() as i128;
    (0, values)
}

/// A float's exact value to a whole number, halves up, by its sign, exponent and digits; `None` where it is infinite or not a number.
fn rounded(value: f32) -> Option<i128> {
    let bits = value.to_bits();
    let (exponent, digits) = (bits >> 23 & 0xff, i128::from(bits & 0x7f_ffff));
    let size = match exponent {
        0xff => return None,
        0 => digits,
        _ => digits + 0x80_0000,
    };
    let n = if bits >> 31 == 1 { -size } else { size };
    // The value is n over 2 to the power k.
    let k = 150 - exponent.max(1) as i32;
    Some(match k {
        // Less than a half in size.
        26.. => 0,
        // Halves of 2^k in n, one more for half up, and the half of that.
        1..=25 => ((n << 1 >> k) + 1) >> 1,
        // Not a fraction. All above 2^43 in size are as far outside the limits as those.
        _ => n << (-k).min(20),
    })
}

/// The point of a fix, by its two floats.
pub fn fix_call(east: f32, north: f32) -> Outcome<2> {
    let (Some(x), Some(y)) = (rounded(east), rounded(north)) else {
        return refused(33);
    };
    if x.abs() > 2000 || y.abs() > 2000 {
        return refused(1);
    }
    (0, [x, y])
}

/// `map` is a, b, g, h, e, f.
pub fn map_call(map: [i128; 6], totals: [i128; 6]) -> Outcome<6> {
    let [a, b, g, h, e, f] = map;
    if [a, b, g, h].iter().any(|k| k.abs() > 2) || [e, f].iter().any(|k| k.abs() > 2000) {
        return refused(3);
    }
    if totals.iter().zip(BOUNDS).any(|(t, bound)| t.abs() > bound) {
        return refused(4);
    }
    let [a2, x6, y6, xx12, xy24, yy12] = totals;
    let d = a * h - b * g;
    let first = |a: i128, b: i128, e: i128| d * (a * x6 + b * y6 + 3 * e * a2);
    let second = |a: i128, b: i128, e: i128| {
        d * (a * a * xx12
            + b * b * yy12
            + a * b * xy24
            + 4 * a * e * x6
            + 4 * b * e * y6
            + 6 * e * e * a2)
    };
    let mixed = d
        * (2 * a * g * xx12
            + 2 * b * h * yy12
            + (a * h + b * g) * xy24
            + 4 * (g * e + a * f) * x6
            + 4 * (h * e + b * f) * y6
            + 12 * e * f * a2);
    let mapped = [
        d * a2,
        first(a, b, e),
        first(g, h, f),
        second(a, b, e),
        mixed,
        second(g, h, f),
    ];
    if mapped.iter().any(|t| t.abs() > LIMIT) {
        return refused(5);
    }
    (0, mapped)
}

/// The whole number k with 2kD − D ≤ 2N < 2kD + D, for D above 0.
fn centre(n: i128, d: i128) -> i128 {
    let k = (2 * n + d).div_euclid(2 * d);
    assert!(2 * k * d - d <= 2 * n && 2 * n < 2 * k * d + d);
    k
}

pub fn centre_call(totals: [i128; 6]) -> Outcome<2> {
    if totals.iter().any(|t| t.abs() > LIMIT) {
        return refused(11);
    }
    let [a2, x6, y6, ..] = totals;
    if a2 == 0 {
        return refused(27);
    }
    let sign = a2.signum();
    (
        0,
        [
            centre(sign * x6, sign * 3 * a2),
            centre(sign * y6, sign * 3 * a2),
        ],
    )
}

/// Adds the totals of the cell in column x of row y: those of the outline round its square, anticlockwise.
fn add_cell(totals: &mut [i128; 6], x: i128, y: i128) {
    add_outline(totals, &[(x, y), (x + 1, y), (x + 1, y + 1), (x, y + 1)]);
}

/// The runs that break 6, by index, in order. A run is row, first column, length.
pub fn breaking_6(runs: &[[u32; 3]]) -> Vec<usize> {
    let bad = |&[row, first, length]: &[u32; 3]| {
        row > 1023 || length == 0 || u64::from(first) + u64::from(length) > 1024
    };
    (0..runs.len()).filter(|&i| bad(&runs[i])).collect()
}

/// The runs that break 7, by index, in order: each that does not lie after the run before it.
pub fn breaking_7(runs: &[[u32; 3]]) -> Vec<usize> {
    let after = |[p, f, l]: [u32; 3], [row, first, _]: [u32; 3]| {
        row > p || row == p && u64::from(first) >= u64::from(f) + u64::from(l)
    };
    (1..runs.len())
        .filter(|&i| !after(runs[i - 1], runs[i]))
        .collect()
}

/// The number, the six totals cell by cell, and the index: with 6 and 7 that of the first run that breaks that rule.
pub fn region_call(runs: &[[u32; 3]]) -> (u32, [i128; 6], usize) {
    if runs.len() > 4096 {
        return (8, [0; 6], 0);
    }
    if let Some(&lowest) = breaking_6(runs).iter().min() {
        return (6, [0; 6], lowest);
    }
    if let Some(&lowest) = breaking_7(runs).iter().min() {
        return (7, [0; 6], lowest);
    }
    let mut totals = [0; 6];
    for &[row, first, length] in runs {
        for column in first..first + length {
            add_cell(&mut totals, i128::from(column), i128::from(row));
        }
    }
    (0, totals, 0)
}

/// A mask is refused by its length alone.
fn wrong_length(words: &[u64]) -> bool {
    words.len() % 16 != 0 || words.len() / 16 > 1024
}

/// Whether each cell of the rows is marked, bit by bit: row by row, and each row by column.
fn marked(words: &[u64]) -> Vec<[bool; 1024]> {
    words
        .chunks_exact(16)
        .map(|row| std::array::from_fn(|column| row[column / 64] & (1 << (column % 64)) != 0))
        .collect()
}

pub fn mask_totals_call(words: &[u64]) -> Outcome<6> {
    if wrong_length(words) {
        return refused(31);
    }
    let mut totals = [0; 6];
    for (y, row) in (0..).zip(marked(words)) {
        for (x, _) in (0..).zip(row).filter(|(_, cell)| *cell) {
            add_cell(&mut totals, x, y);
        }
    }
    (0, totals)
}

/// The longest runs, in order: a marked cell belongs to the run of the cell before it in its row, or begins one.
pub fn longest_runs(words: &[u64]) -> Vec<[u32; 3]> {
    let mut runs: Vec<[u32; 3]> = Vec::new();
    for (y, row) in (0..).zip(marked(words)) {
        for x in (0..1024).filter(|&x| row[x]) {
            match runs.last_mut() {
                Some(run) if x > 0 && row[x - 1] => run[2] += 1,
                _ => runs.push([y, x as u32, 1]),
            }
        }
    }
    runs
}

/// The number, how many runs were written, and the caller's list afterwards.
pub fn mask_runs_call(words: &[u64], before: &[[u32; 3]]) -> (u32, usize, Vec<[u32; 3]>) {
    if wrong_length(words) {
        return (31, 0, before.to_vec());
    }
    let runs = longest_runs(words);
    if runs.len() > 4096 || runs.len() > before.len() {
        return (8, 0, before.to_vec());
    }
    let count = runs.len();
    (0, count, [&runs[..], &before[count..]].concat())
}
