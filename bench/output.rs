//! The lines of the output, gathered in a buffer.

use crate::walk::{Sheet, Totals};
use std::io::{self, Write};

const SIZE: usize = 65_536;
/// Room for the longest line.
const LINE_ROOM: usize = 192;

/// What is still to be written. A line is put only where there is room for the longest.
pub struct Output {
    bytes: Vec<u8>,
    length: usize,
}

impl Output {
    pub fn new() -> Output {
        Output {
            bytes: vec![0; SIZE],
            length: 0,
        }
    }

    pub fn make_room(&mut self) -> io::Result<()> {
        if self.length > SIZE - LINE_ROOM {
            self.flush()?;
        }
        Ok(())
    }

    pub fn flush(&mut self) -> io::Result<()> {
        io::stdout().write_all(&self.bytes[..self.length])?;
        self.length = 0;
        Ok(())
    }

    fn put_byte(&mut self, b: u8) {
        self.bytes[self.length] = b;
        self.length += 1;
    }

    fn put_decimal(&mut self, mut n: u64) {
        let width = n.checked_ilog10().map_or(1, |log| log as usize + 1);
        let place = &mut self.bytes[self.length..self.length + width];
        for digit in place.iter_mut().rev() {
            *digit = b'0' + (n % 10) as u8;
            n /= 10;
        }
        self.length += width;
    }

    fn put_natural(&mut self, n: u32) {
        self.put_byte(b'\t');
        self.put_decimal(u64::from(n));
    }

    fn put_field(&mut self, n: i64) {
        self.put_byte(b'\t');
        if n < 0 {
            self.put_byte(b'-');
        }
        self.put_decimal(n.unsigned_abs());
    }

    fn put_missing(&mut self) {
        self.put_byte(b'\t');
        self.put_byte(b'-');
    }

    fn put_totals(&mut self, totals: Totals) {
        for v in totals.fields() {
            self.put_field(v);
        }
        match totals.centre() {
            Some((x, y)) => {
                self.put_field(x);
                self.put_field(y);
            }
            None => {
                self.put_missing();
                self.put_missing();
            }
        }
        self.put_byte(b'\n');
    }

    pub fn put_refusal(&mut self, line: u32, number: u32) {
        self.put_byte(b'R');
        self.put_natural(line);
        self.put_natural(number);
        self.put_byte(b'\n');
    }

    pub fn put_outline(&mut self, outlines: u32, points: u32, totals: Totals) {
        self.put_byte(b'O');
        self.put_natural(outlines);
        self.put_natural(points);
        self.put_totals(totals);
    }

    pub fn put_sheet(&mut self, sheet: &Sheet) {
        self.put_byte(b'S');
        self.put_natural(sheet.count);
        self.put_totals(sheet.totals);
    }
}
