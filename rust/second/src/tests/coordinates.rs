//! Elements of points: what they stand for, and their units.

use super::*;
use crate::floating;
use crate::{coordinate, Coordinate, Number, Unit};

const NORTH: u32 = 0;
const EAST: u32 = 1;
const HEIGHT: u32 = 2;

const LARGE: u32 = 0x0400;
const SPACE: u32 = 0x02_0000;
const FLOAT: u32 = 0x04_0000;

const PLAIN: [u8; 304] = [0; 304];

fn plain(reference: u32, dimension: u32, bits: u64) -> Result<(u64, Number), Refusal> {
    coordinate(&PLAIN, reference, dimension, bits).map(|Coordinate { width, number, .. }| (width, number))
}

#[test]
fn integers() {
    for dimension in [NORTH, EAST] {
        for (bits, whole) in [(0, 0), (0x7FFF, 32767), (0x8000, 32768), (0xFFFF, 65535)] {
            assert_eq!(plain(SPACE, dimension, bits), Ok((2, Number::Whole(whole))));
        }
        for (bits, whole) in
            [(0, 0), (0x7FFF_FFFF, 2_147_483_647), (0x8000_0001, -2_147_483_647), (0x8000_0000, -2_147_483_648), (0xFFFF_FFFF, -1)]
        {
            assert_eq!(plain(LARGE, dimension, bits), Ok((4, Number::Whole(whole))));
        }
    }
}

#[test]
fn floating_numbers() {
    // Heights are floating whatever the plane is, and as wide as it or four.
    for (reference, dimension) in [(FLOAT, NORTH), (FLOAT, EAST), (SPACE, HEIGHT), (LARGE | SPACE, HEIGHT), (FLOAT | SPACE, HEIGHT)]
    {
        assert_eq!(plain(reference, dimension, 0x42FE_999A), Ok((4, Number::Single(f64::from(127.3f32)))));
        assert_eq!(plain(reference, dimension, 0x7F80_0001), Ok((4, Number::NotNumber(0x7F80_0001))));
    }
    let wide = LARGE | FLOAT | SPACE;
    for dimension in [NORTH, EAST, HEIGHT] {
        assert_eq!(plain(wide, dimension, 127.3f64.to_bits()), Ok((8, Number::Double(127.3))));
        assert_eq!(plain(wide, dimension, u64::MAX), Ok((8, Number::NotNumber(u64::MAX))));
    }
}

/// What IEEE 754 calls the numbers of four bytes, held against the machine's.
#[test]
fn singles_are_the_machines() {
    let mut bits = 0u32;
    loop {
        let machine = f32::from_bits(bits);
        let ours = floating::single(bits).map(f64::to_bits);
        assert_eq!(ours, (!machine.is_nan()).then(|| f64::from(machine).to_bits()), "{bits:#x}");
        let Some(next) = bits.checked_add(1021) else { break };
        bits = next;
    }
    assert_eq!(floating::single(1), Some(f64::from_bits(0x36A0_0000_0000_0000)));
    assert_eq!(floating::single(0x807F_FFFF).map(f64::to_bits), Some(0xB80F_FFFF_C000_0000));
    assert_eq!(floating::single(0x8000_0000).map(f64::to_bits), Some(1 << 63));
    for nan in [0x7F80_0001, 0x7FC0_0000, 0x7FFF_FFFF, 0xFF80_0001, u32::MAX] {
        assert_eq!(floating::single(nan), None);
    }
}

#[test]
fn units_are_the_sheets() {
    let unit = |places: &[(usize, u8)], dimension| {
        let mut rest = PLAIN;
        places.iter().for_each(|&(place, byte)| rest[place - 96] = byte);
        coordinate(&rest, SPACE, dimension, 1).map(|element| element.unit)
    };
    for real in [(96, 0x1B), (98, 1), (315, 0x80)] {
        for (byte, due) in [(0, Unit::Metres), (64, Unit::Radians), (65, Unit::Degrees), (1, Unit::Unknown(1))] {
            assert_eq!(unit(&[real, (236, byte)], NORTH), Ok(due));
            assert_eq!(unit(&[real, (236, byte)], EAST), Ok(due));
            assert_eq!(unit(&[(236, byte)], EAST), Ok(Unit::DevicePoints));
            // A height has its own, in a sheet that is real and in one that is not.
            assert_eq!(unit(&[real, (236, byte)], HEIGHT), Ok(Unit::Metres));
            assert_eq!(unit(&[(236, byte)], HEIGHT), Ok(Unit::Metres));
            assert_eq!(unit(&[real, (236, byte), (237, 64)], HEIGHT), Ok(Unit::Unknown(64)));
            assert_eq!(unit(&[real, (236, byte), (237, 64)], NORTH), Ok(due));
        }
    }
}

#[test]
fn refusals_and_their_order() {
    for dimension in [3, 4, u32::MAX] {
        assert_eq!(plain(u32::MAX, dimension, u64::MAX), Err(refused(16, 0)));
    }
    assert_eq!(plain(1 << 24, HEIGHT, u64::MAX), Err(refused(14, 3)));
    assert_eq!(plain(LARGE | FLOAT, HEIGHT, 0), Err(refused(16, 0)));
    assert_eq!(plain(0, HEIGHT, u64::MAX), Err(refused(16, 0)));
    for (reference, dimension, bits) in [(0, NORTH, 16), (SPACE, HEIGHT, 32), (LARGE, EAST, 32), (FLOAT, NORTH, 32)] {
        assert_eq!(plain(reference, dimension, 1 << bits), Err(refused(14, 0)));
        assert_eq!(plain(reference, dimension, u64::MAX), Err(refused(14, 0)));
        assert!(plain(reference, dimension, (1 << bits) - 1).is_ok());
    }
}

/// Bits of the reference bytes that say nothing of elements change nothing.
#[test]
fn other_bits_say_nothing() {
    for bit in 0..24 {
        let bit = 1 << bit;
        if bit & (LARGE | FLOAT | SPACE) == 0 {
            for reference in [0, LARGE, FLOAT, SPACE, LARGE | FLOAT | SPACE] {
                for dimension in [NORTH, EAST, HEIGHT] {
                    assert_eq!(plain(reference | bit, dimension, 0x1234), plain(reference, dimension, 0x1234));
                }
            }
        }
    }
}
