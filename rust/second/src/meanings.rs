//! What stored numbers mean: unit, plane corners, visibility, values.

use crate::bytes::{bytes_at, u32_at};
use crate::floating;
use crate::item::Kind;
use crate::refusal::Refusal;
use crate::sheet::head_of;

/// What a sheet's coordinates or heights are counted in.
#[derive(Clone, Copy, PartialEq, Eq, Debug)]
pub enum Unit {
    /// The sheet is not real.
    DevicePoints,
    /// A real sheet with 0 at +236; heights with 0 at +237.
    Metres,
    /// A real sheet with 64 at +236.
    Radians,
    /// A real sheet with 65 at +236.
    Degrees,
    /// A real sheet with another byte at +236, which is told; heights with
    /// another byte at +237.
    Unknown(u8),
}

/// The unit of a sheet, after the sheet's own refusals.
pub fn unit(sheet: &[u8], year: u32) -> Result<Unit, Refusal> {
    Ok(plane_unit(&head_of(sheet, year)?.rest))
}

/// The unit of X and Y in a sheet with these bytes from 96 on.
pub(crate) fn plane_unit(rest: &[u8; 304]) -> Unit {
    let real_flag = rest[0] & 0x18 == 0x18;
    let accuracy = rest[98 - 96];
    let resolution = u32_at(rest, 312 - 96) as i32;
    let real = real_flag || resolution < 0 || accuracy != 0;
    if !real {
        return Unit::DevicePoints;
    }
    match rest[236 - 96] {
        0 => Unit::Metres,
        64 => Unit::Radians,
        65 => Unit::Degrees,
        other => Unit::Unknown(other),
    }
}

/// The unit of heights in a sheet with these bytes from 96 on, whether it is
/// real or not. Document 000, table 1: of the eight bytes at +232 the sixth is
/// "Единица измерения по высоте", "0 - метры", and nothing else is listed.
pub(crate) fn height_unit(rest: &[u8; 304]) -> Unit {
    match rest[232 + 5 - 96] {
        0 => Unit::Metres,
        other => Unit::Unknown(other),
    }
}

/// The stored bits of the eight doubles at +104, after the sheet's own
/// refusals: X and Y of the south-west, north-west, north-east and south-east
/// corner.
pub fn corners(sheet: &[u8], year: u32) -> Result<[u64; 8], Refusal> {
    let rest = head_of(sheet, year)?.rest;
    let mut corners = [0; 8];
    for (number, corner) in corners.iter_mut().enumerate() {
        *corner = u64::from_le_bytes(bytes_at(&rest, 104 - 96 + 8 * number));
    }
    Ok(corners)
}

/// Document 000, table 4: maps smaller than 1:10 000.
const SMALL_SCALE: [u32; 16] = [
    500, 1_000, 2_000, 5_000, 10_000, 25_000, 50_000, 100_000, 200_000, 500_000, 1_000_000, 2_000_000, 5_000_000, 10_000_000,
    20_000_000, 40_000_000,
];

/// Document 000, table 5: maps of 1:10 000 and larger.
const LARGE_SCALE: [u32; 16] =
    [5, 10, 25, 50, 100, 200, 500, 1_000, 2_000, 5_000, 10_000, 25_000, 50_000, 100_000, 200_000, 500_000];

/// The lower and the upper scale denominator of a visibility byte; none if
/// it is unset. `flags` is the byte at +96, whose bit 7 picks the table.
pub fn visibility(flags: u8, byte: u8) -> Option<(u32, u32)> {
    if byte == 0xFF {
        return None;
    }
    let table = if flags & 0x80 == 0 { SMALL_SCALE } else { LARGE_SCALE };
    let lower = usize::from(byte & 0x0F);
    let upper = 15 - usize::from(byte >> 4);
    Some((table[lower], table[upper]))
}

/// What an item's value stands for.
#[derive(Clone, Copy, PartialEq, Debug)]
pub enum Value {
    /// Types 1, 2 and 4: `whole` times ten to the `power`.
    Number {
        /// The stored signed integer.
        whole: i64,
        /// The signed scale.
        power: i64,
    },
    /// Type 8: the double.
    Double(f64),
    /// Type 8: the stored bits of a NaN.
    NotNumber(u64),
    /// A text has no number.
    Text,
    /// SEMANTIC at the item's own place of the type or of the scale byte.
    Refused(Refusal),
}

/// The value of an item from its type byte, its scale byte and `bits`: for
/// types 1, 2 and 4 the low 8, 16 or 32 of them, for type 8 all. The scale of
/// a text is its length, and no number depends on it; that type 128 has 0xFF
/// there is asked of a sheet, and not here.
pub fn value(kind: u8, scale: u8, bits: u64) -> Value {
    match Kind::of(kind) {
        None => Value::Refused(Refusal::new(Refusal::SEMANTIC, 2)),
        Some(Kind::Text | Kind::WideText | Kind::LongText) => Value::Text,
        Some(Kind::Double) => floating::double(bits).map_or(Value::NotNumber(bits), Value::Double),
        Some(Kind::Whole(bytes)) => decimal(bytes, scale, bits),
    }
}

fn decimal(bytes: u8, scale: u8, bits: u64) -> Value {
    if !Kind::Whole(bytes).allows_scale(scale) {
        return Value::Refused(Refusal::new(Refusal::SEMANTIC, 3));
    }
    let whole = match bytes {
        1 => i64::from(bits as u8 as i8),
        2 => i64::from(bits as u16 as i16),
        _ => i64::from(bits as u32 as i32),
    };
    let power = i64::from(scale as i8);
    Value::Number { whole, power }
}
