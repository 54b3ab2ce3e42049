//! Elements of points: what their bits stand for, and in which unit.

use crate::heads::head;
use crate::judge::Judge;
use crate::numbers::Numbers;
use crate::sheets::setting;
use sxf_sys::dimensions::{EAST, HEIGHT, NORTH};
use sxf_sys::fields::{passport, Field, Rest};
use sxf_sys::reference::{ELEMENT_SIZE, FLOATING, THREE_DIMENSIONS};

/// The dimensions, and numbers that are none.
const DIMENSIONS: [u32; 7] = [NORTH, EAST, HEIGHT, 3, 4, 256, u32::MAX];

/// The ends of each kind of element and their neighbours, one past each width,
/// and what floating numbers are likely to be taken wrongly for.
#[rustfmt::skip]
pub const EDGES: [u64; 61] = [
    // Integers of two bytes, and of four.
    0, 1, 0x7FFE, 0x7FFF, 0x8000, 0x8001, 0xFFFE, 0xFFFF, 0x1_0000, 0x1_0001,
    0x7FFF_FFFE, 0x7FFF_FFFF, 0x8000_0000, 0x8000_0001, 0xFFFF_FFFE, 0xFFFF_FFFF, 0x1_0000_0000, 0x1_0000_0001,
    // Singles: the largest below the least normal one, that one, 1 and its neighbours, the largest, infinity, NaNs that signal and quiet ones.
    0x007F_FFFF, 0x0080_0000, 0x3F7F_FFFF, 0x3F80_0000, 0x3F80_0001, 0x7F7F_FFFF, 0x7F80_0000, 0x7F80_0001, 0x7FBF_FFFF, 0x7FC0_0000, 0x7FC0_0001,
    0x807F_FFFF, 0x8080_0000, 0xBF80_0000, 0xFF7F_FFFF, 0xFF80_0000, 0xFF80_0001, 0xFFBF_FFFF, 0xFFC0_0000,
    // The same of doubles.
    0x000F_FFFF_FFFF_FFFF, 0x0010_0000_0000_0000, 0x3FEF_FFFF_FFFF_FFFF, 0x3FF0_0000_0000_0000, 0x3FF0_0000_0000_0001,
    0x7FEF_FFFF_FFFF_FFFF, 0x7FF0_0000_0000_0000, 0x7FF0_0000_0000_0001, 0x7FF7_FFFF_FFFF_FFFF, 0x7FF8_0000_0000_0000, 0x7FF8_0000_0000_0001,
    0x7FFF_FFFF_FFFF_FFFF, 0x8000_0000_0000_0000, 0x8000_0000_0000_0001, 0x800F_FFFF_FFFF_FFFF, 0x8010_0000_0000_0000, 0xBFF0_0000_0000_0000,
    0xFFEF_FFFF_FFFF_FFFF, 0xFFF0_0000_0000_0000, 0xFFF0_0000_0000_0001, 0xFFF7_FFFF_FFFF_FFFF, 0xFFF8_0000_0000_0000, 0xFFFF_FFFF_FFFF_FFFE,
    0xFFFF_FFFF_FFFF_FFFF,
];

const RESOLUTIONS: [u32; 8] = [0, 1, 0x7FFF_FFFE, 0x7FFF_FFFF, 0x8000_0000, 0x8000_0001, 0xFFFF_FFFE, 0xFFFF_FFFF];

/// The eight shapes of points, by the bits that say them.
pub fn shapes() -> impl Iterator<Item = u32> {
    let bit = |shape: u32, number: u32, bit: u64| if shape >> number & 1 == 1 { bit as u32 } else { 0 };
    (0..8).map(move |shape| bit(shape, 0, ELEMENT_SIZE) | bit(shape, 1, FLOATING) | bit(shape, 2, THREE_DIMENSIONS))
}

fn put(rest: &mut Rest, field: Field, number: u32) {
    rest[passport::in_rest(field).range()].copy_from_slice(&number.to_le_bytes()[..field.width]);
}

/// One value of a byte: at each byte of the rest that says a unit, in each
/// byte of a reference number, and as the top byte of an element; and all
/// edges, in each shape and in each dimension.
pub fn byte(judge: &mut Judge, value: u8, numbers: &mut Numbers) {
    units(judge, value);
    references(judge, value, numbers);
    elements(judge, value, numbers);
    judge.accepted = true;
}

/// The value at each byte that says a unit, under each way to be real and
/// not, and beside each unit of the plane and of heights.
fn units(judge: &mut Judge, value: u8) {
    let ways =
        RESOLUTIONS.map(|resolution| [3, 0, resolution]).into_iter().chain([[0x1B, 0, 0], [3, 1, 0], [0x13, 0, 0], [0x0B, 0, 0]]);
    for [flags, accuracy, resolution] in ways {
        for (unit, height_unit) in [(0, 0), (64, 0), (65, 64), (7, 1), (0, 255)] {
            let mut rest = [0; passport::REST.width];
            put(&mut rest, passport::FLAGS, flags);
            put(&mut rest, passport::ACCURACY, accuracy);
            put(&mut rest, passport::RESOLUTION, resolution);
            put(&mut rest, passport::UNIT, unit);
            put(&mut rest, passport::HEIGHT_UNIT, height_unit);
            for field in [passport::FLAGS, passport::ACCURACY, passport::UNIT, passport::HEIGHT_UNIT] {
                let mut rest = rest;
                put(&mut rest, field, u32::from(value));
                one_of_each(judge, &rest);
            }
            // Each byte of the resolution, and the bytes beside all of these.
            let places = (passport::RESOLUTION.place - 1..=passport::RESOLUTION.after()).chain([97, 99, 235, 238]);
            for place in places {
                let mut rest = rest;
                put(&mut rest, Field::new(place, 1), u32::from(value));
                one_of_each(judge, &rest);
            }
        }
    }
}

fn one_of_each(judge: &mut Judge, rest: &Rest) {
    for reference in [THREE_DIMENSIONS, THREE_DIMENSIONS | FLOATING | ELEMENT_SIZE] {
        for dimension in [NORTH, EAST, HEIGHT] {
            judge.coordinate(rest, reference as u32, dimension, 0x8001);
        }
    }
}

/// The value as byte 21 and as byte 22 beside all values of the other, and
/// over the three bytes.
fn references(judge: &mut Judge, value: u8, numbers: &mut Numbers) {
    let rest = any_rest(numbers);
    for other in 0..=255 {
        for bytes in
            [[numbers.byte(), value, other, 0], [other, value, numbers.byte(), value], [value, other, numbers.byte(), other]]
        {
            for dimension in DIMENSIONS {
                for bits in [0, 0xFFFF, 0x1_0000, 0x7F80_0001, 0xFFFF_FFFF, 0x1_0000_0000, numbers.any()] {
                    judge.coordinate(&rest, u32::from_le_bytes(bytes), dimension, bits);
                }
            }
        }
    }
    for bit in 0..32 {
        for shape in shapes() {
            for dimension in DIMENSIONS {
                judge.coordinate(&rest, shape | 1 << bit, dimension, u64::from(value));
            }
        }
    }
}

/// The edges, and the value as the top byte of an element of each width.
fn elements(judge: &mut Judge, value: u8, numbers: &mut Numbers) {
    let rest = any_rest(numbers);
    for shape in shapes() {
        for dimension in DIMENSIONS {
            for bits in EDGES {
                judge.coordinate(&rest, shape, dimension, bits);
            }
            for width in [16, 32, 64] {
                for below in [0, 1, u64::MAX, numbers.any(), numbers.any()] {
                    let bits = u64::from(value) << (width - 8) | below & u64::MAX >> (72 - width);
                    judge.coordinate(&rest, shape, dimension, bits);
                }
            }
        }
    }
}

/// The rest of a head that may be written, or any bytes.
fn any_rest(numbers: &mut Numbers) -> Rest {
    let year = setting(numbers);
    let mut rest = head(numbers, year).rest;
    if numbers.chance(1, 4) {
        rest.iter_mut().for_each(|byte| *byte = numbers.byte());
    }
    rest
}

/// How many elements are asked for in a drawn case.
const DRAWN: usize = 50;

/// Elements of records that are drawn; the first says whether the case is
/// accepted.
pub fn drawn(judge: &mut Judge, numbers: &mut Numbers) {
    let rest = any_rest(numbers);
    for asked in 0..DRAWN {
        let reference = if numbers.chance(15, 16) { numbers.any() as u32 >> 8 } else { numbers.of_bits(32) as u32 };
        let dimension = if numbers.chance(15, 16) { numbers.below(3) as u32 } else { numbers.of_bits(32) as u32 };
        let width = numbers.pick(&[16, 32, 32, 64]);
        let bits = match numbers.below(4) {
            0 => numbers.pick(&EDGES),
            // Floating numbers whose exponents are all ones or nearly so.
            1 => numbers.any() >> (64 - width) | 0xFF << (width - 9),
            _ => numbers.of_bits(width),
        };
        let answered = judge.coordinate(&rest, reference, dimension, bits);
        if asked == 0 {
            judge.accepted = answered;
        }
    }
}
