//! Unit, corners, visibility and values.

use super::*;
use crate::{corners, unit, value, visibility, Unit, Value};

#[test]
fn units() {
    let of = |changes: &[(usize, &[u8])]| unit(&changed(&sheet_e(), changes), 2017).unwrap();
    assert_eq!(of(&[]), Unit::DevicePoints);
    assert_eq!(of(&[(236, &[64])]), Unit::DevicePoints);
    assert_eq!(of(&[(312, &[0xFF, 0xFF, 0xFF, 0x7F])]), Unit::DevicePoints);
    assert_eq!(of(&[(444, &[0x1B])]), Unit::DevicePoints);
    let real: [(usize, &[u8]); 3] = [(96, &[0x1B]), (315, &[0x80]), (98, &[1])];
    for real in real {
        assert_eq!(of(&[real]), Unit::Metres);
        assert_eq!(of(&[real, (236, &[64])]), Unit::Radians);
        assert_eq!(of(&[real, (236, &[65])]), Unit::Degrees);
        assert_eq!(of(&[real, (236, &[1])]), Unit::Unknown(1));
        assert_eq!(of(&[real, (236, &[255])]), Unit::Unknown(255));
    }
}

#[test]
fn plane_corners() {
    let mut sheet = sheet_e();
    for (at, byte) in (104..168).enumerate() {
        sheet[byte] = at as u8;
    }
    let corners = corners(&summed(sheet), 1999).unwrap();
    for (number, corner) in corners.into_iter().enumerate() {
        let first = 8 * number as u8;
        let bytes: Vec<u8> = (first..first + 8).collect();
        assert_eq!(corner.to_le_bytes()[..], bytes);
    }
}

#[test]
fn the_sheets_own_refusals_come_first() {
    let left_over = changed(&sheet_p(), &[(440, &[0])]);
    assert_eq!(unit(&left_over, 1999), Err(refused(13, 452)));
    assert_eq!(corners(&left_over, 1999), Err(refused(13, 452)));
    assert_eq!(unit(&sheet_e(), 2005), Err(refused(16, 0)));
    assert_eq!(corners(&sheet_e(), 2005), Err(refused(16, 0)));
}

#[test]
fn visibility_bytes() {
    assert_eq!(visibility(0x03, 0x24), Some((10_000, 10_000_000)));
    assert_eq!(visibility(0x83, 0x24), Some((100, 100_000)));
    assert_eq!(visibility(0x03, 0xFF), None);
    assert_eq!(visibility(0x83, 0xFF), None);
    assert_eq!(visibility(0x03, 0x00), Some((500, 40_000_000)));
    assert_eq!(visibility(0x83, 0x00), Some((5, 500_000)));
    assert_eq!(visibility(0x7F, 0xFE), Some((20_000_000, 500)));
    assert_eq!(visibility(0xFF, 0xF0), Some((5, 5)));
}

#[test]
fn values() {
    let number = |whole, power| Value::Number { whole, power };
    // Document 000, example 1: 127.3.
    assert_eq!(value(2, 0xFF, 0x04F9), number(1273, -1));
    assert_eq!(value(1, 0x7F, 0xFFFF_FF80), number(-128, 127));
    assert_eq!(value(1, 0x81, 0xFFFF_FF7F), number(127, -127));
    assert_eq!(value(2, 0, 0x1234_8000), number(-32768, 0));
    assert_eq!(value(4, 0, 0x8000_0000), number(-2_147_483_648, 0));
    assert_eq!(value(4, 0, 0x7FFF_FFFF), number(2_147_483_647, 0));
    assert_eq!(value(4, 0, 0x1234_5678_FFFF_FFFE), number(-2, 0));
    for kind in 0..=255 {
        let due = match kind {
            1 | 2 | 4 => Value::Refused(refused(12, 3)),
            0 | 126 | 127 | 128 => Value::Text,
            8 => Value::Double(f64::from_bits(5)),
            _ => Value::Refused(refused(12, 2)),
        };
        assert_eq!(value(kind, 0x80, 5), due);
    }
}

#[test]
fn values_of_type_8() {
    for scale in [0, 1, 0x7F, 0x80, 0xFF] {
        assert_eq!(value(8, scale, 0x3FF0_0000_0000_0000), Value::Double(1.0));
        assert_eq!(value(8, scale, 0xFFF0_0000_0000_0000), Value::Double(f64::NEG_INFINITY));
        assert!(matches!(value(8, scale, 1 << 63), Value::Double(zero) if zero == 0.0 && zero.is_sign_negative()));
        for nan in [0x7FF0_0000_0000_0001, 0x7FF8_0000_0000_0000, 0xFFF0_0000_0000_0001, u64::MAX] {
            assert_eq!(value(8, scale, nan), Value::NotNumber(nan));
        }
    }
}
