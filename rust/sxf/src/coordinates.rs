//! Numbers as stored, and coordinates, each unit a type of its own: a coordinate in device points never stands for one in metres.
//!
//! What a stored element stands for, and in which unit, is the library's answer, from the sheet's own bytes: a coordinate or a height that is
//! read gets no other. A unit is named only for what is to be written ([`Unit::coordinate`], [`HeightUnit::height`]), and then it must be the
//! sheet's.
//!
//! ```
//! use sxf::{Coordinate, HeightUnit, Number, Setting, Sheet};
//! # let bytes = include_bytes!("../../../samples/heights.sxf");
//! let sheet = Sheet::read(bytes, Setting::Y2017)?;
//! let point = sheet.record(0)?.parts().next().and_then(|part| part.points().next()).expect("a point");
//! assert!(matches!(point.x, Coordinate::DevicePoints(x) if x.number() == Number::Whole(1)));
//! assert!(point.x.metres().is_none());
//! let height = point.height.expect("a height");
//! assert_eq!((height.unit(), height.number()), (HeightUnit::Metres, Number::Single(1.0)));
//! # Ok::<(), sxf::Refusal>(())
//! ```
use crate::refusal::low8;
use std::fmt;
use sxf_sys::fields::passport;
use sxf_sys::{dimensions, kinds, lent, reference, refusals, units, Rest};

/// The unit of a sheet's coordinates.
#[derive(Clone, Copy, Debug, PartialEq, Eq, Hash)]
pub enum Unit {
    /// The sheet is not real: points of the device it was made on.
    DevicePoints,
    /// A real sheet in metres.
    Metres,
    /// A real sheet in radians.
    Radians,
    /// A real sheet in degrees.
    Degrees,
    /// A real sheet of unknown unit, with the byte at +236 that says so.
    Unknown(u8),
}

impl Unit {
    /// A unit as the library answers it.
    pub(crate) fn of(unit: u64, byte: u64) -> Unit {
        match unit {
            units::DEVICE_POINTS => Unit::DevicePoints,
            units::METRES => Unit::Metres,
            units::RADIANS => Unit::Radians,
            units::DEGREES => Unit::Degrees,
            _ => Unit::Unknown(low8(byte)),
        }
    }

    /// A number in this unit, for a point that is to be written. [`Writer::push`](crate::Writer::push) takes it only where this is the
    /// sheet's unit. A coordinate that is read is not made here: it comes from its sheet.
    ///
    /// ```
    /// use sxf::{Number, Unit};
    /// let x = Unit::Metres.coordinate(Number::Whole(3));
    /// assert!(x.metres().is_some() && x.device_points().is_none());
    /// ```
    pub fn coordinate(self, number: Number) -> Coordinate {
        match self {
            Unit::DevicePoints => Coordinate::DevicePoints(DevicePoints(number)),
            Unit::Metres => Coordinate::Metres(Metres(number)),
            Unit::Radians => Coordinate::Radians(Radians(number)),
            Unit::Degrees => Coordinate::Degrees(Degrees(number)),
            Unit::Unknown(byte) => Coordinate::Unknown(byte, number),
        }
    }
}

impl fmt::Display for Unit {
    fn fmt(&self, f: &mut fmt::Formatter<'_>) -> fmt::Result {
        match self {
            Unit::DevicePoints => f.write_str("device points"),
            Unit::Metres => f.write_str("metres"),
            Unit::Radians => f.write_str("radians"),
            Unit::Degrees => f.write_str("degrees"),
            Unit::Unknown(byte) => write!(f, "unknown unit {byte}"),
        }
    }
}

macro_rules! units {
    ($($(#[$doc:meta])* $name:ident)*) => {
        $(
            $(#[$doc])*
            #[derive(Clone, Copy, Debug, PartialEq)]
            pub struct $name(Number);

            impl $name {
                /// Its number.
                pub fn number(self) -> Number {
                    self.0
                }
            }
        )*
    };
}

units! {
    /// A coordinate in device points.
    DevicePoints
    /// A coordinate in metres.
    Metres
    /// A coordinate in radians.
    Radians
    /// A coordinate in degrees.
    Degrees
}

/// A coordinate in the sheet's unit. One in a known unit is read from a sheet, or made by [`Unit::coordinate`] to be written.
#[derive(Clone, Copy, Debug, PartialEq)]
pub enum Coordinate {
    /// In device points.
    DevicePoints(DevicePoints),
    /// In metres.
    Metres(Metres),
    /// In radians.
    Radians(Radians),
    /// In degrees.
    Degrees(Degrees),
    /// Of unknown unit: the byte that says so, and the number.
    Unknown(u8, Number),
}

impl Coordinate {
    /// Its unit.
    pub fn unit(self) -> Unit {
        match self {
            Coordinate::DevicePoints(_) => Unit::DevicePoints,
            Coordinate::Metres(_) => Unit::Metres,
            Coordinate::Radians(_) => Unit::Radians,
            Coordinate::Degrees(_) => Unit::Degrees,
            Coordinate::Unknown(byte, _) => Unit::Unknown(byte),
        }
    }

    /// Its number, without the unit.
    pub fn number(self) -> Number {
        match self {
            Coordinate::DevicePoints(DevicePoints(n))
            | Coordinate::Metres(Metres(n))
            | Coordinate::Radians(Radians(n))
            | Coordinate::Degrees(Degrees(n))
            | Coordinate::Unknown(_, n) => n,
        }
    }

    /// In device points, if it is.
    pub fn device_points(self) -> Option<DevicePoints> {
        match self {
            Coordinate::DevicePoints(c) => Some(c),
            _ => None,
        }
    }

    /// In metres, if it is.
    pub fn metres(self) -> Option<Metres> {
        match self {
            Coordinate::Metres(c) => Some(c),
            _ => None,
        }
    }

    /// In radians, if it is.
    pub fn radians(self) -> Option<Radians> {
        match self {
            Coordinate::Radians(c) => Some(c),
            _ => None,
        }
    }

    /// In degrees, if it is.
    pub fn degrees(self) -> Option<Degrees> {
        match self {
            Coordinate::Degrees(c) => Some(c),
            _ => None,
        }
    }
}

/// The unit of a sheet's heights, whatever that of its plane is.
#[derive(Clone, Copy, Debug, PartialEq, Eq, Hash)]
pub enum HeightUnit {
    /// Heights in metres.
    Metres,
    /// Heights of unknown unit, with the byte at +237 that says so.
    Unknown(u8),
}

impl HeightUnit {
    /// A unit as the library answers it for a height.
    fn of(unit: u64, byte: u64) -> HeightUnit {
        match unit {
            units::METRES => HeightUnit::Metres,
            _ => HeightUnit::Unknown(low8(byte)),
        }
    }

    /// The unit of heights in a sheet of this rest: that of a height of zero.
    pub(crate) fn of_rest(rest: &Rest) -> HeightUnit {
        let answer = lent::coordinate_of(rest, reference::THREE_DIMENSIONS as u32, dimensions::HEIGHT, 0);
        HeightUnit::of(answer.unit, answer.byte)
    }

    /// A height in this unit, for a point that is to be written. [`Writer::push`](crate::Writer::push) takes it only where this is the unit
    /// of the sheet's heights. A height is always floating, so a number that is whole has no place in a sheet, and is refused there too.
    ///
    /// ```
    /// use sxf::{HeightUnit, Number};
    /// let height = HeightUnit::Metres.height(Number::Single(127.5));
    /// assert_eq!((height.unit(), height.number()), (HeightUnit::Metres, Number::Single(127.5)));
    /// ```
    pub fn height(self, number: Number) -> Height {
        Height(self, number)
    }
}

impl fmt::Display for HeightUnit {
    fn fmt(&self, f: &mut fmt::Formatter<'_>) -> fmt::Result {
        match self {
            HeightUnit::Metres => f.write_str("metres"),
            HeightUnit::Unknown(byte) => write!(f, "unknown unit {byte}"),
        }
    }
}

/// A height. It is never in the unit of the plane: its own unit stands at +237 of the passport.
#[derive(Clone, Copy, Debug, PartialEq)]
pub struct Height(HeightUnit, Number);

impl Height {
    /// Its unit.
    pub fn unit(self) -> HeightUnit {
        self.0
    }

    /// Its number, without the unit.
    pub fn number(self) -> Number {
        self.1
    }
}

/// Where the elements of a record's points are told from: its sheet's rest and its own reference number. A unit is not asked for.
#[derive(Clone, Copy, Debug)]
pub(crate) struct Elements<'a> {
    rest: &'a Rest,
    reference: u32,
}

impl<'a> Elements<'a> {
    pub fn of(rest: &'a Rest, reference: u32) -> Elements<'a> {
        Elements { rest, reference }
    }

    /// The library's answer; none where it refuses, which it does for no element of a sheet.
    fn answer(self, dimension: u32, bits: u64) -> Option<sxf_sys::Coordinate> {
        let answer = lent::coordinate_of(self.rest, self.reference, dimension, bits);
        (answer.number == refusals::OK).then_some(answer)
    }

    fn planar(self, dimension: u32, bits: u64) -> Option<Coordinate> {
        let answer = self.answer(dimension, bits)?;
        Some(Unit::of(answer.unit, answer.byte).coordinate(Number::of(&answer)?))
    }

    /// The coordinate X that stored bits are.
    pub fn north(self, bits: u64) -> Option<Coordinate> {
        self.planar(dimensions::NORTH, bits)
    }

    /// The coordinate Y that stored bits are.
    pub fn east(self, bits: u64) -> Option<Coordinate> {
        self.planar(dimensions::EAST, bits)
    }

    /// The height that stored bits are; none in two dimensions.
    pub fn height(self, bits: u64) -> Option<Height> {
        let answer = self.answer(dimensions::HEIGHT, bits)?;
        Some(Height(HeightUnit::of(answer.unit, answer.byte), Number::of(&answer)?))
    }
}

/// What an element stands for.
#[derive(Clone, Copy, Debug, PartialEq)]
pub enum Number {
    /// An integer of two bytes (0 to 65535) or of four (signed).
    Whole(i64),
    /// A floating number of four bytes.
    Single(f32),
    /// A floating number of eight bytes.
    Double(f64),
    /// A floating element that is a NaN: its stored bits.
    NotNumber(u64),
}

impl Number {
    /// Its value as a double, exact for all that a sheet can hold; none for a NaN, or a whole number that no element holds.
    pub fn value(self) -> Option<f64> {
        match self {
            // Integers of a sheet have at most 32 bits, sign and all.
            Number::Whole(n) => i32::try_from(n).ok().map(f64::from),
            Number::Single(n) => Some(f64::from(n)),
            Number::Double(n) => Some(n),
            Number::NotNumber(_) => None,
        }
    }

    /// What the library says that an element is. Its double is exact: that of an integer is an integer, that of a single a single.
    fn of(answer: &sxf_sys::Coordinate) -> Option<Number> {
        let double = f64::from_bits(answer.bits);
        match answer.kind {
            kinds::WHOLE => Some(Number::Whole(double as i64)),
            kinds::SINGLE => Some(Number::Single(double as f32)),
            kinds::DOUBLE => Some(Number::Double(double)),
            kinds::NAN => Some(Number::NotNumber(answer.bits)),
            _ => None,
        }
    }

    /// A double of the head, which is no element.
    pub(crate) fn of_double(bits: u64) -> Number {
        match f64::from_bits(bits) {
            n if n.is_nan() => Number::NotNumber(bits),
            n => Number::Double(n),
        }
    }
}

impl fmt::Display for Number {
    /// Floating numbers are told by the shortest digits that give the same bits again, a NaN by its bits.
    fn fmt(&self, f: &mut fmt::Formatter<'_>) -> fmt::Result {
        match self {
            Number::Whole(n) => n.fmt(f),
            Number::Single(n) => write!(f, "{n:?}"),
            Number::Double(n) => write!(f, "{n:?}"),
            Number::NotNumber(bits) => write!(f, "NaN({bits:#x})"),
        }
    }
}

/// How an element is stored.
#[derive(Clone, Copy, Debug, PartialEq, Eq, Hash)]
pub enum ElementKind {
    /// An integer of two bytes, not signed.
    Short,
    /// An integer of four bytes, signed.
    Long,
    /// A floating number of four bytes.
    Single,
    /// A floating number of eight bytes.
    Double,
}

/// A rest for questions whose answers do not depend on it: the units stand there, and nothing of how an element is stored.
static ANY_REST: Rest = [0; passport::REST.width];

impl ElementKind {
    /// How the elements of a dimension are stored in a record of this reference number; none for a height in two dimensions. It is the kind
    /// and the width of the library's answer for the bits 0, which every element holds and which are no NaN. Any rest has the same answer.
    pub(crate) fn of_dimension(reference: u32, dimension: u32) -> Option<ElementKind> {
        let answer = Elements::of(&ANY_REST, reference).answer(dimension, 0)?;
        match (answer.kind, answer.width) {
            (kinds::WHOLE, 2) => Some(ElementKind::Short),
            (kinds::WHOLE, 4) => Some(ElementKind::Long),
            (kinds::SINGLE, 4) => Some(ElementKind::Single),
            (kinds::DOUBLE, 8) => Some(ElementKind::Double),
            _ => None,
        }
    }

    /// The reference bits of a record whose planar elements are of this kind.
    fn reference(self) -> u64 {
        match self {
            ElementKind::Short => 0,
            ElementKind::Long => reference::ELEMENT_SIZE,
            ElementKind::Single => reference::FLOATING,
            ElementKind::Double => reference::FLOATING | reference::ELEMENT_SIZE,
        }
    }

    /// How many bytes it has.
    pub fn width(self) -> usize {
        match self {
            ElementKind::Short => 2,
            ElementKind::Long | ElementKind::Single => 4,
            ElementKind::Double => 8,
        }
    }

    /// What stored bits stand for, as the library answers it; none where they are too wide for this kind. Any rest has the same number.
    pub fn number(self, bits: u64) -> Option<Number> {
        Number::of(&Elements::of(&ANY_REST, self.reference() as u32).answer(dimensions::NORTH, bits)?)
    }

    /// The bits that stand for a number; none where this kind has no such number. Nothing is rounded.
    ///
    /// ```
    /// use sxf::{ElementKind, Number};
    /// assert_eq!(ElementKind::Long.bits(Number::Whole(-1)), Some(0xFFFF_FFFF));
    /// assert_eq!(ElementKind::Short.bits(Number::Whole(-1)), None);
    /// assert_eq!(ElementKind::Single.bits(Number::Double(0.1)), None);
    /// ```
    pub fn bits(self, number: Number) -> Option<u64> {
        match (self, number) {
            (ElementKind::Short, Number::Whole(n)) => u16::try_from(n).ok().map(u64::from),
            (ElementKind::Long, Number::Whole(n)) => i32::try_from(n).ok().map(|n| u64::from(n as u32)),
            (ElementKind::Single, Number::Single(n)) => Some(u64::from(n.to_bits())),
            (ElementKind::Double, Number::Double(n)) => Some(n.to_bits()),
            // Bits of another width, or of a number, are no NaN of this kind.
            (_, Number::NotNumber(bits)) if self.number(bits) == Some(number) => Some(bits),
            _ => None,
        }
    }
}

impl fmt::Display for ElementKind {
    /// The elements of this kind, all of them: `integers of 2 bytes`.
    fn fmt(&self, f: &mut fmt::Formatter<'_>) -> fmt::Result {
        f.write_str(match self {
            ElementKind::Short => "integers of 2 bytes",
            ElementKind::Long => "integers of 4 bytes",
            ElementKind::Single => "floating numbers of 4 bytes",
            ElementKind::Double => "floating numbers of 8 bytes",
        })
    }
}

#[cfg(test)]
mod tests {
    use super::*;

    #[test]
    fn bits_and_numbers_go_to_and_fro() {
        let tried = [
            (ElementKind::Short, 0xFFFF, Number::Whole(65535)),
            (ElementKind::Long, 0xFFFF_FFFF, Number::Whole(-1)),
            (ElementKind::Long, 0x8000_0000, Number::Whole(-2_147_483_648)),
            (ElementKind::Single, 0x3F80_0000, Number::Single(1.0)),
            (ElementKind::Single, 0x7F80_0001, Number::NotNumber(0x7F80_0001)),
            (ElementKind::Single, 0x7F80_0000, Number::Single(f32::INFINITY)),
            (ElementKind::Double, 0x8000_0000_0000_0000, Number::Double(-0.0)),
            (ElementKind::Double, 0x7FF0_0000_0000_0001, Number::NotNumber(0x7FF0_0000_0000_0001)),
        ];
        for (kind, bits, number) in tried {
            assert_eq!(kind.number(bits), Some(number));
            assert_eq!(kind.bits(number), Some(bits));
        }
    }

    /// Each kind is that of its own reference bits, so that both ways of asking for a number are the same.
    #[test]
    fn a_kind_is_that_of_its_reference() {
        for kind in [ElementKind::Short, ElementKind::Long, ElementKind::Single, ElementKind::Double] {
            let reference = kind.reference() as u32;
            assert_eq!(ElementKind::of_dimension(reference, dimensions::NORTH), Some(kind));
            assert_eq!(ElementKind::of_dimension(reference, dimensions::EAST), Some(kind));
            assert_eq!(ElementKind::of_dimension(reference, dimensions::HEIGHT), None);
            let answer = Elements::of(&ANY_REST, reference).answer(dimensions::NORTH, 0).expect("an answer");
            assert_eq!(answer.width, kind.width() as u64);
        }
    }

    /// The plane is in degrees and heights are of unknown unit: neither has the other's.
    #[test]
    fn plane_and_height_are_each_in_their_own_unit() {
        let mut rest = ANY_REST;
        rest[passport::in_rest(passport::FLAGS).place] = 0x1B;
        rest[passport::in_rest(passport::UNIT).place] = 65;
        rest[passport::in_rest(passport::HEIGHT_UNIT).place] = 64;
        let space = Elements::of(&rest, reference::THREE_DIMENSIONS as u32);
        assert_eq!(space.north(65535), Some(Unit::Degrees.coordinate(Number::Whole(65535))));
        assert_eq!(space.east(0), Some(Unit::Degrees.coordinate(Number::Whole(0))));
        assert_eq!(space.height(0x8000_0001), Some(HeightUnit::Unknown(64).height(Number::Single(f32::from_bits(0x8000_0001)))));
        assert_eq!(HeightUnit::of_rest(&rest), HeightUnit::Unknown(64));
        assert_eq!((space.north(65536), space.height(1 << 32)), (None, None));
        assert_eq!(Elements::of(&rest, 0).height(0), None);
    }

    #[test]
    fn what_is_too_wide_or_of_another_kind_is_none() {
        assert_eq!(ElementKind::Short.number(0x1_0000), None);
        assert_eq!(ElementKind::Single.number(0x1_0000_0000), None);
        assert_eq!(ElementKind::Double.bits(Number::Whole(1)), None);
        assert_eq!(ElementKind::Double.bits(Number::NotNumber(0x7F80_0001)), None);
        assert_eq!(ElementKind::Short.bits(Number::NotNumber(1)), None);
    }
}
