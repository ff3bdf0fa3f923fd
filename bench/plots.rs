//! The text program of documents 01 and 02 in Rust: the same input, output and limits, with no proof. A read or a write that fails ends it without an S line.
mod output;
mod walk;

use output::Output;
use std::io::{self, Read};
use walk::{Kind, Position, Sheet, Walk};

const CHUNK: usize = 65_536;
/// So many newlines stand behind the bytes that were read: no form is longer, so each can be read as if all of it were there.
const PAD: usize = 16;
const FORM_SIZE: usize = 32;
const MOST_LINES: u32 = 1_000_000;
const MOST_BYTES: usize = 33_000_000;

// ---- the forms of a line

enum Form {
    Begin(Kind),
    End,
    Abandon,
    Point(Position),
}

/// A number and how many bytes it takes.
fn read_number(text: &[u8; 5]) -> Option<(i32, usize)> {
    let minus = text[0] == b'-';
    let skipped = usize::from(minus);
    let [a, b, c, d] = [0, 1, 2, 3].map(|k| u32::from(text[skipped + k].wrapping_sub(b'0')));
    if a > 9 {
        return None;
    }
    let two = 10 * a + b;
    let three = 10 * two + c;
    let four = 10 * three + d;
    let (value, size) = if b > 9 {
        if a == 0 && minus {
            return None;
        }
        (a, 1)
    } else if a == 0 {
        return None;
    } else if c > 9 {
        (two, 2)
    } else if d > 9 {
        (three, 3)
    } else {
        (four, 4)
    };
    let value = value as i32;
    Some((if minus { -value } else { value }, skipped + size))
}

/// The form of the line that the text begins with, and the place of its newline.
fn read_form(text: &[u8]) -> Option<(Form, usize)> {
    let (form, end) = match text[0] {
        b'P' => {
            if text[1] != b'\t' {
                return None;
            }
            let (x, x_size) = read_number(text[2..].first_chunk()?)?;
            let tab = 2 + x_size;
            if text[tab] != b'\t' {
                return None;
            }
            let (y, y_size) = read_number(text[tab + 1..].first_chunk()?)?;
            (Form::Point(Position { x, y }), tab + 1 + y_size)
        }
        b'B' if text[1] == b'\t' && text[2] == b'H' => (Form::Begin(Kind::Hole), 3),
        b'B' => (Form::Begin(Kind::Island), 1),
        b'E' => (Form::End, 1),
        b'A' => (Form::Abandon, 1),
        _ => return None,
    };
    (text[end] == b'\n').then_some((form, end))
}

// ---- the program

fn main() -> io::Result<()> {
    let mut stdin = io::stdin().lock();
    let mut input = vec![b'\n'; CHUNK + PAD];
    let mut output = Output::new();
    let mut walk = Walk::default();
    let mut sheet = Sheet::default();
    let mut lines = 0;
    let mut bytes = 0; // of whole lines
    let mut held = 0; // of a line that is too long for any form, and gone
    let mut at = 0;
    let mut stop = 0;
    'reading: loop {
        input.copy_within(at..stop, 0);
        let left = stop - at;
        let got = stdin.read(&mut input[left..CHUNK])?;
        at = 0;
        stop = left + got;
        input[stop..stop + PAD].fill(b'\n');
        let last = got == 0;
        while at < stop || (last && held > 0) {
            output.make_room()?;
            let form = if held > 0 {
                None
            } else {
                read_form(&input[at..])
            };
            let newline = match &form {
                Some((_, size)) => at + size,
                None => input[at..stop]
                    .iter()
                    .position(|&b| b == b'\n')
                    .map_or(stop, |k| at + k),
            };
            let size = newline - at + usize::from(newline < stop);
            if lines >= MOST_LINES || bytes + held + size > MOST_BYTES {
                output.put_refusal(lines + 1, 10);
                break 'reading;
            }
            if newline == stop && !last {
                if held + size > FORM_SIZE {
                    held += size;
                    at = stop;
                }
                break;
            }
            lines += 1;
            bytes += held + size;
            held = 0;
            at += size;
            let done = match form {
                Some((Form::Point(p), _)) => walk.point(p),
                Some((Form::Begin(kind), _)) => walk.begin(kind),
                Some((Form::Abandon, _)) => walk.abandon(),
                Some((Form::End, _)) => {
                    let points = walk.count;
                    walk.end(&mut sheet)
                        .map(|totals| output.put_outline(sheet.count, points, totals))
                }
                None => Err(9),
            };
            if let Err(number) = done {
                output.put_refusal(lines, number);
            }
        }
        if last {
            break;
        }
    }
    output.make_room()?;
    output.put_sheet(&sheet);
    output.flush()
}
