//! Fixes of a receiver: floats where the answer turns, and floats of every kind.
use crate::inputs::{float, Random};
use crate::{narrow, reference, Met};
use mavrihkel::{fix_point, fix_point_into, outline_totals, Point, Refusal};

const SIGN: u32 = 1 << 31;

/// The call as it is, and as a result.
fn compare(east: f32, north: f32, met: &mut Met) {
    let (number, values) = reference::fix_call(east, north);
    let named = format!("{:08X} {:08X}", east.to_bits(), north.to_bits());
    let mut out = [i64::MIN; 2];
    assert_eq!(fix_point_into(east, north, &mut out), number, "{named}");
    assert_eq!(out, narrow(values), "{named}");
    let [x, y] = values.map(|z| z as i32);
    let wanted = match number {
        0 => Ok(Point { x, y }),
        1 => Err(Refusal::CoordinateOutsideLimits),
        _ => Err(Refusal::NotFinite),
    };
    assert_eq!(fix_point(east, north), wanted, "{named}");
    met.count(number);
}

/// Zero and the smallest floats, halves, the limits, where whole numbers of 32 and 64 bits end, the largest, infinity, and what is not a number: each with the float before and after it, and with either sign.
fn boundaries() -> Vec<f32> {
    let halves = [0.5, 1.5, 2.5, 1999.5, 2000.5, 8_388_607.5];
    let wholes = [1.0, 2000.0, 2001.0, 16_777_216.0, 4_294_967_296.0];
    let wide = [2_147_483_648.0, 18_446_744_073_709_551_616.0, f32::MAX];
    let values = halves.iter().chain(&wholes).chain(&wide);
    values
        .map(|value: &f32| value.to_bits())
        .chain([1, 0x0080_0000, 0x7f80_0001, 0x7fc0_0000, 0x7fff_fffe])
        .flat_map(|bits| [bits - 1, bits, bits + 1])
        .flat_map(|bits| [f32::from_bits(bits), f32::from_bits(bits | SIGN)])
        .collect()
}

#[test]
fn every_two_floats_where_the_answer_turns() {
    let mut met = Met::default();
    let floats = boundaries();
    for &east in &floats {
        for &north in &floats {
            compare(east, north, &mut met);
        }
    }
    met.each_of(&[0, 1, 33], 1_000);
}

#[test]
fn floats_of_every_kind() {
    let mut random = Random::seeded(16);
    let mut met = Met::default();
    for _ in 0..200_000 {
        compare(float(&mut random), float(&mut random), &mut met);
    }
    met.each_of(&[0, 1, 33], 1_000);
}

/// Every half and every whole number about the limits, with the floats next to it.
#[test]
fn every_half_and_every_whole_number() {
    let mut met = Met::default();
    for halves in -4_010..=4_010 {
        let bits = (halves as f32 / 2.0).to_bits();
        for near in [bits.wrapping_sub(1), bits, bits + 1] {
            compare(f32::from_bits(near), 7.0, &mut met);
            compare(-7.0, f32::from_bits(near), &mut met);
        }
    }
    met.each_of(&[0, 1, 33], 1);
}

/// Whatever its digits, what is not a number is refused, beside a float out of limits too.
#[test]
fn not_a_number() {
    let mut met = Met::default();
    for bit in 0..23 {
        for bits in [0x7f80_0000 | 1 << bit, 0x7fff_ffff ^ 1 << bit] {
            for value in [f32::from_bits(bits), f32::from_bits(bits | SIGN)] {
                for other in [0.0, 2000.5, f32::INFINITY, f32::NAN] {
                    compare(value, other, &mut met);
                    compare(other, value, &mut met);
                }
            }
        }
    }
    met.each_of(&[33], 736);
}

/// An outline's points from fixes, none of which is a whole number.
#[test]
fn outline_by_fixes() {
    let rectangle = [2, 0, 10, 4, 8, 8, 0, 4];
    let points: Vec<i32> = rectangle
        .chunks(2)
        .map(|p| fix_point(p[0] as f32 - 0.5, p[1] as f32 + 0.25).expect("accepted"))
        .flat_map(|Point { x, y }| [x, y])
        .collect();
    assert_eq!(points, rectangle);
    assert!(outline_totals(&points).is_ok());
}
