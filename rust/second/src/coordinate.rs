//! What one element of a point stands for, and in which unit it is.

use crate::floating;
use crate::meanings::{height_unit, plane_unit, Unit};
use crate::reference::Reference;
use crate::refusal::{require, Refusal};

/// What an element stands for.
#[derive(Clone, Copy, PartialEq, Debug)]
pub enum Number {
    /// An integer of two or four bytes.
    Whole(i64),
    /// The value of a floating number of four bytes.
    Single(f64),
    /// A floating number of eight bytes.
    Double(f64),
    /// The stored bits of a NaN.
    NotNumber(u64),
}

/// An element of a point.
#[derive(Clone, Copy, PartialEq, Debug)]
pub struct Coordinate {
    /// In the plane the sheet's, of a height its own: metres or unknown.
    pub unit: Unit,
    /// The bytes that it has in the sheet.
    pub width: u64,
    /// What they stand for.
    pub number: Number,
}

/// The third number of a point ("X1 Y1 H1", document 000, 2.1.4).
const HEIGHT: u32 = 2;

/// Where the reference bytes stand in a record's row of the table.
const REFERENCE_INDEX: u64 = 3;

/// What the stored bits of an element stand for: `rest` are the bytes 96 to
/// 399 of its sheet, `reference` its record's reference bytes as one number,
/// and `dimension` counts the numbers of a point from 0.
///
/// Refused is, in this order: a dimension that no point has, a reference
/// number that is no three bytes, the height of a point of two dimensions, and
/// bits that are not all within the element.
pub fn coordinate(rest: &[u8; 304], reference: u32, dimension: u32, bits: u64) -> Result<Coordinate, Refusal> {
    require(dimension <= HEIGHT, Refusal::ASK, 0)?;
    let [byte20, byte21, byte22, too_high] = reference.to_le_bytes();
    require(too_high == 0, Refusal::TABLE, REFERENCE_INDEX)?;
    let reference = Reference([byte20, byte21, byte22]);
    let is_height = dimension == HEIGHT;
    let shape = reference.shape();
    let width = if is_height { shape.height_width() } else { shape.planar_width() };
    require(width != 0, Refusal::ASK, 0)?;
    let bytes = bits.to_le_bytes();
    let (stored, beyond) = bytes.split_at(width);
    require(beyond.iter().all(|&byte| byte == 0), Refusal::TABLE, 0)?;
    // "Высота всегда задана в виде числа с плавающей точкой" (000, table 3,
    // note 6).
    let number = if is_height || reference.is_floating() { floating_number(stored) } else { whole_number(stored) };
    let unit = if is_height { height_unit(rest) } else { plane_unit(rest) };
    Ok(Coordinate { unit, width: width as u64, number })
}

/// "от 0 до 65535 для двухбайтного элемента", and signed for one of four bytes
/// (000, 2.1.4).
fn whole_number(stored: &[u8]) -> Number {
    let of_two = |bytes: [u8; 2]| i64::from(u16::from_le_bytes(bytes));
    let of_four = |bytes: [u8; 4]| i64::from(i32::from_le_bytes(bytes));
    Number::Whole(stored.try_into().map(of_two).or_else(|_| stored.try_into().map(of_four)).unwrap_or_default())
}

fn floating_number(stored: &[u8]) -> Number {
    if let Ok(bytes) = stored.try_into() {
        let bits = u32::from_le_bytes(bytes);
        return floating::single(bits).map_or(Number::NotNumber(u64::from(bits)), Number::Single);
    }
    let bits = u64::from_le_bytes(stored.try_into().unwrap_or_default());
    floating::double(bits).map_or(Number::NotNumber(bits), Number::Double)
}
