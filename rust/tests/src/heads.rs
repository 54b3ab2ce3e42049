//! Heads that may be written for a year.

use crate::numbers::Numbers;
use second::Head;
use sxf_sys::fields::{descriptor, passport, Carried, Field, Rest};
use sxf_sys::years;

pub use sxf_sys::years::SETTINGS;

/// Years that are no setting.
pub const NO_SETTINGS: [u32; 7] = [0, 1998, 2000, 2005, 2018, 0x8000_07E1, u32::MAX];

/// Bits of doubles that are likely to be taken wrongly.
const DOUBLES: [u64; 12] = [
    0,
    0x8000_0000_0000_0000,
    0x3FF8_0000_0000_0000,
    0xC1E0_0000_0000_0000,
    0x7FF0_0000_0000_0000,
    0xFFF0_0000_0000_0000,
    0x7FF8_0000_0000_0000,
    0x7FF0_0000_0000_0001,
    0xFFF8_0000_0000_0000,
    0xFFF4_0000_DEAD_BEEF,
    1,
    0x000F_FFFF_FFFF_FFFF,
];

/// A text of at most so many bytes, none of them zero.
pub fn text(numbers: &mut Numbers, most: usize) -> Vec<u8> {
    let length = match numbers.below(8) {
        0 => 0,
        1 => most,
        _ => numbers.index(most + 1),
    };
    (0..length).map(|_| numbers.between(1, 255) as u8).collect()
}

/// A head with no feature later than the year. Each feature that is not
/// later stands in one head of three.
pub fn head(numbers: &mut Numbers, year: u32) -> Head {
    Head {
        date: text(numbers, most(passport::DATE)),
        designation: text(numbers, most(passport::DESIGNATION)),
        scale: numbers.of_bits(32) as u32,
        title: text(numbers, most(passport::TITLE)),
        rest: rest(numbers, year),
        designation2: text(numbers, most(descriptor::DESIGNATION)),
        carried: carried(numbers, year),
    }
}

/// The longest text that a field holds: a zero must follow it.
pub fn most(field: Field) -> usize {
    field.width - 1
}

/// Whether what is made for `year` uses a feature that came in the year
/// `feature`.
pub fn uses(numbers: &mut Numbers, feature: u32, year: u32) -> bool {
    feature <= year && numbers.chance(1, 3)
}

fn rest(numbers: &mut Numbers, year: u32) -> Rest {
    let mut rest = [0; passport::REST.width];
    let set = numbers.pick(&[0, 1, 16]);
    for byte in &mut rest {
        if numbers.chance(set, 16) {
            *byte = numbers.byte();
        }
    }
    let flags = 3 | numbers.pick(&[0, 0x18]) | numbers.pick(&[0, 0x80]);
    put(&mut rest, passport::FLAGS, &[flags]);
    put(&mut rest, passport::LABELS, &[numbers.below(3) as u8]);
    let accuracy = if uses(numbers, years::ACCURACY_SET, year) { numbers.below(4) as u8 } else { 0 };
    put(&mut rest, passport::ACCURACY, &[accuracy]);
    let sorting = u8::from(uses(numbers, years::SPECIAL_SORTING, year));
    put(&mut rest, passport::SORTING, &[sorting]);
    let epsg = if uses(numbers, years::EPSG_SET, year) { numbers.of_bits(32) as u32 } else { 0 };
    put(&mut rest, passport::EPSG, &epsg.to_le_bytes());
    if numbers.chance(1, 2) {
        corners(numbers, &mut rest);
    }
    let unit = numbers.byte();
    put(&mut rest, passport::UNIT, &[numbers.pick(&[0, 64, 65, unit])]);
    let resolution = numbers.of_bits(32) as u32;
    put(&mut rest, passport::RESOLUTION, &resolution.to_le_bytes());
    for (field, since) in [(passport::NORTH, years::NORTH_OFFSET), (passport::EAST, years::EAST_OFFSET)] {
        let offset = if uses(numbers, since, year) { numbers.of_bits(64) } else { 0 };
        put(&mut rest, field, &offset.to_le_bytes());
    }
    rest
}

fn corners(numbers: &mut Numbers, rest: &mut Rest) {
    for corner in 0..8 {
        let any = numbers.any();
        let bits = match numbers.below(3) {
            0 => numbers.pick(&DOUBLES),
            1 => any | 0x7FF0_0000_0000_0000,
            _ => any,
        };
        if numbers.chance(1, 2) {
            put(rest, Field::new(passport::CORNERS.place + 8 * corner, 8), &bits.to_le_bytes());
        }
    }
}

fn carried(numbers: &mut Numbers, year: u32) -> Carried {
    let flags = 3 | numbers.pick(&[0, 0x18]) | numbers.byte() & 0x84;
    let guid = u8::from(uses(numbers, years::AUTOMATIC_GUID, year));
    let edited = u8::from(uses(numbers, years::EDIT_DATE, year));
    [flags, numbers.below(3) as u8, numbers.below(6) as u8, guid | edited << 1]
}

/// Stores the bytes of a field.
fn put(rest: &mut Rest, field: Field, bytes: &[u8]) {
    rest[passport::in_rest(field).range()].copy_from_slice(bytes);
}
