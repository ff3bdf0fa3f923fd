//! Seeded inputs: the same in every run.

/// The generator splitmix64.
pub struct Random(u64);

impl Random {
    pub fn seeded(seed: u64) -> Random {
        Random(seed)
    }

    pub fn next(&mut self) -> u64 {
        self.0 = self.0.wrapping_add(0x9e37_79b9_7f4a_7c15);
        let mut z = self.0;
        z = (z ^ (z >> 30)).wrapping_mul(0xbf58_476d_1ce4_e5b9);
        z = (z ^ (z >> 27)).wrapping_mul(0x94d0_49bb_1331_11eb);
        z ^ (z >> 31)
    }

    /// From `low` to `high`, both included.
    pub fn between(&mut self, low: i64, high: i64) -> i64 {
        let span = (i128::from(high) - i128::from(low) + 1) as u128;
        (i128::from(low) + (u128::from(self.next()) % span) as i128) as i64
    }

    pub fn one_of<T: Copy>(&mut self, choices: &[T]) -> T {
        choices[(self.next() % choices.len() as u64) as usize]
    }

    pub fn one_in(&mut self, n: u64) -> bool {
        self.next() % n == 0
    }
}

/// Numbers of a list of `length`, all within the limits.
pub fn coordinates(random: &mut Random, length: usize) -> Vec<i32> {
    coordinates_within(random, 2000, length)
}

/// Numbers of a list of `length`, none greater in size than the limit: spread, close together, or at the corners.
pub fn coordinates_within(random: &mut Random, limit: i64, length: usize) -> Vec<i32> {
    let size = random.one_of(&[limit, limit, 3]);
    let corners = random.one_in(3);
    (0..length)
        .map(|_| {
            if corners {
                random.one_of(&[-size, size])
            } else {
                random.between(-size, size)
            }
        })
        .map(|z| z as i32)
        .collect()
}

/// A list with one to three numbers past the limits.
pub fn damaged(random: &mut Random, length: usize) -> Vec<i32> {
    let mut list = coordinates(random, length);
    for _ in 0..random.between(1, 3) {
        if length > 0 {
            let at = random.between(0, length as i64 - 1) as usize;
            let any = random.next() as i32;
            list[at] = random.one_of(&[2001, -2001, i32::MAX, i32::MIN, i32::MIN + 1, any]);
        }
    }
    list
}

/// The same points in the opposite order.
pub fn backwards(list: &[i32]) -> Vec<i32> {
    list.chunks(2).rev().flatten().copied().collect()
}

/// The same points recorded once more, in step: each number off by a little, within the limits.
pub fn recorded_again(random: &mut Random, list: &[i32]) -> Vec<i32> {
    let error = random.one_of(&[0, 1, 5, 100]);
    list.iter()
        .map(|&z| (i64::from(z) + random.between(-error, error)).clamp(-2000, 2000))
        .map(|z| z as i32)
        .collect()
}

/// A float by its bits: any, near 2,000.5 or a half, a whole number, within the limits and of any size, or infinite or not a number; above zero or below.
pub fn float(random: &mut Random) -> f32 {
    let any = random.next() as u32 >> 1;
    let whole = random.between(0, 2003) as f32;
    let near = random.between(-300, 300) as i32;
    let size = match random.between(0, 20) {
        0..=3 => any,
        4..=7 => 2000.5_f32.to_bits().wrapping_add_signed(near),
        8..=13 => (whole + 0.5).to_bits().wrapping_add_signed(near % 4),
        14..=16 => whole.to_bits(),
        17..=19 => any % 2000.0_f32.to_bits(),
        _ => any | 0x7f80_0000,
    };
    f32::from_bits(size | random.one_of(&[0, 1 << 31]))
}

/// Runs that make up a region: in rows at random, in every row in turn, or in one row. `count` is at most 4,097, which is one too many.
pub fn region(random: &mut Random, count: usize) -> Vec<[u32; 3]> {
    let spread = random.one_of(&[1, 20, 1024]);
    let mut rows: Vec<i64> = match random.between(0, 2) {
        0 if count <= 1024 => vec![random.between(0, 1023); count],
        1 => (0..count).map(|i| (i % 1024) as i64).collect(),
        _ => (0..count).map(|_| random.between(0, 1023)).collect(),
    };
    rows.sort_unstable();
    let mut runs = Vec::with_capacity(count);
    let mut free = 0;
    for (i, &row) in rows.iter().enumerate() {
        if i == 0 || rows[i - 1] != row {
            free = 0;
        }
        let to_come = rows[i + 1..].iter().take_while(|&&r| r == row).count() as i64;
        let end = 1024 - to_come;
        let first = random.between(free, (free + spread - 1).min(end - 1));
        let length = random.between(1, spread.min(end - first));
        runs.push([row, first, length].map(|z| z as u32));
        free = first + length;
    }
    runs
}

/// A region in which one to four runs have a number past its limits, or overlap or change places with the next.
pub fn damaged_region(random: &mut Random, count: usize) -> Vec<[u32; 3]> {
    let mut runs = region(random, count);
    if count < 2 {
        return runs;
    }
    let order_alone = random.one_in(2);
    for _ in 0..random.between(1, 4) {
        let i = random.between(0, count as i64 - 2) as usize;
        let any = random.next() as u32;
        let run = &mut runs[i + random.one_of(&[0, 1])];
        match random.between(0, 5) {
            0 => runs.swap(i, i + 1),
            1 => runs[i + 1] = runs[i],
            _ if order_alone => runs.swap(i, i + 1),
            2 => run[0] = random.one_of(&[1023, 1024, u32::MAX, any]),
            3 => run[1] = random.one_of(&[1023, 1024, u32::MAX, any]),
            4 => run[2] = random.one_of(&[0, 1025, u32::MAX, any]),
            _ => run[2] = 1025 - run[1].min(1024),
        }
    }
    runs
}

/// The words of a mask: sparse, dense, at random, at the edges of words, or in stretches of cells.
pub fn mask(random: &mut Random, rows: usize) -> Vec<u64> {
    let mut words = vec![0; 16 * rows];
    let kind = random.between(0, 4);
    let stretches = rows as i64 * random.one_of(&[1, 3]);
    match kind {
        0 | 1 => (0..stretches).for_each(|_| mark(random, &mut words, 1)),
        2 => words.fill_with(|| random.next()),
        3 => words.fill_with(|| {
            random.one_of(&[
                0,
                u64::MAX,
                1,
                1 << 63,
                1 << 63 | 1,
                u64::MAX - 1,
                u64::MAX >> 1,
            ])
        }),
        _ => (0..stretches).for_each(|_| {
            let longest = random.one_of(&[2, 65, 1024]);
            mark(random, &mut words, longest);
        }),
    }
    if kind == 1 {
        words.iter_mut().for_each(|word| *word = !*word);
    }
    words
}

/// Marks a stretch of cells in one row, from any column on: as many as the longest at most, and no further than the row goes.
fn mark(random: &mut Random, words: &mut [u64], longest: i64) {
    let row = random.between(0, words.len() as i64 / 16 - 1) as usize;
    let first = random.between(0, 1023);
    let end = (first + random.between(1, longest)).min(1024);
    for column in first as usize..end as usize {
        words[16 * row + column / 64] |= 1 << (column % 64);
    }
}

/// A mask of just so many runs, each of one cell in an even column. `count` is at most 512 for each row.
pub fn mask_of_runs(random: &mut Random, rows: usize, count: usize) -> Vec<u64> {
    let mut words = vec![0; 16 * rows];
    let mut left = count;
    while left > 0 {
        let cell = 2 * random.between(0, 512 * rows as i64 - 1) as usize;
        let bit = 1 << (cell % 64);
        if words[cell / 64] & bit == 0 {
            words[cell / 64] |= bit;
            left -= 1;
        }
    }
    words
}
