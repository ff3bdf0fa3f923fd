//! Walk and sheet; a refused call answers its number.

const MOST_POINTS: u32 = 1_024;
const MOST_OUTLINES: u32 = 64;
const SHEET_LIMIT: i64 = 1_000_000_000_000_000_000;
/// The outline bounds over 1,024: what each point of a walk may add to a total.
const SHARES: [i64; 6] = [
    8_000_000,
    32_000_000_000,
    32_000_000_000,
    96_000_000_000_000,
    192_000_000_000_000,
    96_000_000_000_000,
];

#[derive(Clone, Copy, Default)]
pub struct Position {
    pub x: i32,
    pub y: i32,
}

#[derive(Clone, Copy, Default)]
pub struct Totals {
    a2: i64,
    x6: i64,
    y6: i64,
    xx12: i64,
    xy24: i64,
    yy12: i64,
}

#[derive(Clone, Copy, Default, PartialEq)]
pub enum Kind {
    #[default]
    Island,
    Hole,
}

#[derive(Clone, Copy, Default)]
pub struct Walk {
    is_open: bool,
    kind: Kind,
    pub count: u32,
    first: Position,
    last: Position,
    totals: Totals,
}

#[derive(Clone, Copy, Default)]
pub struct Sheet {
    pub count: u32,
    pub totals: Totals,
}

impl Totals {
    fn add_edge(&mut self, from: Position, to: Position) {
        let (x, y) = (i64::from(from.x), i64::from(from.y));
        let (p, q) = (i64::from(to.x), i64::from(to.y));
        let c = x * q - p * y;
        self.a2 += c;
        self.x6 += (x + p) * c;
        self.y6 += (y + q) * c;
        self.xx12 += (x * x + x * p + p * p) * c;
        self.xy24 += (2 * x * y + x * q + p * y + 2 * p * q) * c;
        self.yy12 += (y * y + y * q + q * q) * c;
    }

    fn plus(self, other: Totals) -> Totals {
        Totals {
            a2: self.a2 + other.a2,
            x6: self.x6 + other.x6,
            y6: self.y6 + other.y6,
            xx12: self.xx12 + other.xx12,
            xy24: self.xy24 + other.xy24,
            yy12: self.yy12 + other.yy12,
        }
    }

    /// So that A2 is above 0 for an island and below 0 for a hole.
    fn turned(self, kind: Kind) -> Totals {
        if (self.a2 < 0) == (kind == Kind::Hole) {
            return self;
        }
        Totals {
            a2: -self.a2,
            x6: -self.x6,
            y6: -self.y6,
            xx12: -self.xx12,
            xy24: -self.xy24,
            yy12: -self.yy12,
        }
    }

    fn exceed(self, bounds: [i64; 6]) -> bool {
        self.fields()
            .iter()
            .zip(bounds)
            .any(|(&v, bound)| !(-bound..=bound).contains(&v))
    }

    pub fn fields(self) -> [i64; 6] {
        [self.a2, self.x6, self.y6, self.xx12, self.xy24, self.yy12]
    }

    pub fn centre(self) -> Option<(i64, i64)> {
        if self.a2 == 0 {
            return None;
        }
        let sign = self.a2.signum();
        let d = 3 * sign * self.a2;
        Some((nearest(sign * self.x6, d), nearest(sign * self.y6, d)))
    }
}

/// n / d for d above 0, rounded half up.
fn nearest(n: i64, d: i64) -> i64 {
    (2 * n + d).div_euclid(2 * d)
}

fn outside(v: i32) -> bool {
    !(-2_000..=2_000).contains(&v)
}

impl Sheet {
    /// Refusal 28 for a sheet.
    fn impossible(&self) -> bool {
        self.count > MOST_OUTLINES || self.totals.exceed([SHEET_LIMIT; 6])
    }
}

impl Walk {
    /// Refusal 28, which document 01 has each call test first.
    fn impossible(&self) -> bool {
        if !self.is_open {
            return false;
        }
        let (first, last) = (self.first, self.last);
        if self.count > MOST_POINTS
            || self.count > 0
                && (outside(first.x) || outside(first.y) || outside(last.x) || outside(last.y))
        {
            return true;
        }
        let n = i64::from(self.count);
        self.totals.exceed(SHARES.map(|share| n * share))
    }

    pub fn begin(&mut self, kind: Kind) -> Result<(), u32> {
        if self.impossible() {
            return Err(28);
        }
        if self.is_open {
            return Err(22);
        }
        *self = Walk {
            is_open: true,
            kind,
            ..Walk::default()
        };
        Ok(())
    }

    pub fn point(&mut self, p: Position) -> Result<(), u32> {
        if self.impossible() {
            return Err(28);
        }
        if !self.is_open {
            return Err(21);
        }
        if outside(p.x) || outside(p.y) {
            return Err(1);
        }
        if self.count >= MOST_POINTS {
            return Err(23);
        }
        if self.count == 0 {
            self.first = p;
        } else {
            self.totals.add_edge(self.last, p);
        }
        self.last = p;
        self.count += 1;
        Ok(())
    }

    pub fn abandon(&mut self) -> Result<(), u32> {
        if self.impossible() {
            return Err(28);
        }
        if !self.is_open {
            return Err(21);
        }
        *self = Walk::default();
        Ok(())
    }

    /// Apart from the loop over lines: there the compiler would reckon the closing edge with every point.
    #[inline(never)]
    pub fn end(&mut self, sheet: &mut Sheet) -> Result<Totals, u32> {
        if self.impossible() || sheet.impossible() {
            return Err(28);
        }
        if !self.is_open {
            return Err(21);
        }
        if self.count < 3 {
            return Err(24);
        }
        let mut totals = self.totals;
        totals.add_edge(self.last, self.first);
        if totals.a2 == 0 {
            return Err(32);
        }
        if sheet.count >= MOST_OUTLINES {
            return Err(25);
        }
        let totals = totals.turned(self.kind);
        let sum = sheet.totals.plus(totals);
        if sum.exceed([SHEET_LIMIT; 6]) {
            return Err(26);
        }
        sheet.totals = sum;
        sheet.count += 1;
        *self = Walk::default();
        Ok(totals)
    }
}
