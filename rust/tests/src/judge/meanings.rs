//! What stored numbers mean.

use super::Judge;
use crate::archive;
use crate::tables::{rows, widths};
use crate::tally::{Call, Reason, Way, Where};
use second::{Number, Reading, Refusal, Unit, Value};
use sxf_sys::fields::{item, passport, Rest};
use sxf_sys::refusals::{OK, TABLE};
use sxf_sys::row::{self, POINTS, TEXT_LENGTH};
use sxf_sys::{kinds, units};

impl Judge {
    /// What a generalisation byte says under the flags at +96.
    pub fn visibility(&mut self, flags: u8, byte: u8) {
        let answer = archive::visibility_of(flags, byte);
        let due = second::visibility(flags, byte);
        let (lower, upper) = due.unwrap_or((0, 0));
        let expected = archive::Visibility { set: u64::from(due.is_some()), lower: u64::from(lower), upper: u64::from(upper) };
        self.met.answers[Call::VisibilityOf as usize][0] = 1;
        self.same(|| format!("visibility {byte:#x} under {flags:#x}"), answer, expected);
    }

    /// The value of an item of this type and scale byte, of these bits. Tells
    /// whether it is answered.
    pub fn value(&mut self, kind: u8, scale: u8, bits: u64) -> bool {
        let answer = archive::value_of(kind, scale, bits);
        self.meet(Call::ValueOf, answer.number);
        let none = archive::Value::default();
        let expected = match second::value(kind, scale, bits) {
            Value::Number { whole, power } => archive::Value { kind: kinds::DECIMAL, whole, power, ..none },
            Value::Double(double) => archive::Value { kind: kinds::DOUBLE, bits: double.to_bits(), ..none },
            Value::NotNumber(bits) => archive::Value { kind: kinds::NAN, bits, ..none },
            Value::Text => archive::Value { kind: kinds::NO_NUMBER, ..none },
            Value::Refused(refusal) => {
                self.meet_meaning(refusal);
                archive::Value { number: refusal.number, place: refusal.place, year: refusal.year, ..none }
            }
        };
        if expected.number == OK {
            self.met.items[expected.kind as usize] = 1;
        }
        self.same(|| format!("value of type {kind}, scale {scale}, bits {bits:#x}"), answer, expected);
        answer.number == OK
    }

    /// An element of a point, in a sheet of this rest. Tells whether it is
    /// answered.
    pub fn coordinate(&mut self, rest: &Rest, reference: u32, dimension: u32, bits: u64) -> bool {
        let answer = archive::coordinate_of(rest, reference, dimension, bits);
        self.meet(Call::CoordinateOf, answer.number);
        let none = archive::Coordinate::default();
        let expected = match second::coordinate(rest, reference, dimension, bits) {
            Ok(second::Coordinate { unit, width, number }) => {
                let (unit, byte) = unit_numbers(unit);
                let (kind, bits) = number_numbers(number);
                self.met.elements[dimension as usize][kind as usize] = 1;
                self.met.element_units[dimension as usize][unit as usize] = 1;
                archive::Coordinate { unit, byte, width, kind, bits, ..none }
            }
            Err(refusal) => {
                self.meet_meaning(refusal);
                archive::Coordinate { number: refusal.number, place: refusal.place, year: refusal.year, ..none }
            }
        };
        let asked = || {
            let said = [passport::FLAGS, passport::ACCURACY, passport::RESOLUTION, passport::UNIT, passport::HEIGHT_UNIT];
            let said = said.map(|field| &rest[passport::in_rest(field).range()]);
            format!("element {dimension} of a point, reference {reference:#x}, bits {bits:#x}, unit bytes {said:02x?}")
        };
        self.same(asked, answer, expected);
        answer.number == OK
    }

    fn meet_meaning(&mut self, Refusal { number, place, year }: Refusal) {
        let at = match (number, place as usize) {
            (TABLE, row::REFERENCE) => Where::Row(row::REFERENCE),
            (_, 0) => Where::Asked,
            (_, place) if place == item::TYPE.place => Where::Item(row::ITEM_TYPE),
            _ => Where::Item(row::ITEM_SCALE),
        };
        self.meet_reason(Reason { way: Way::Mean, number, at, year });
    }

    /// Every element and every item of an accepted sheet: none is refused.
    pub(super) fn meanings_of(&mut self, reading: &Reading) {
        let (rest, table) = (&reading.head.rest, &reading.table);
        let (mut elements, mut bytes) = (&table.elements[..], &table.bytes[..]);
        for row in rows(table) {
            let total = |column: usize| row.parts.iter().map(|part| part[column]).sum::<u64>() as usize;
            let of_a_point = widths(row.record.reference).elements() as usize;
            let (own, after) = elements.split_at(of_a_point * total(POINTS));
            (elements, bytes) = (after, &bytes[total(TEXT_LENGTH)..]);
            let reference = row.record.reference as u32;
            let mut answered = 0;
            for point in own.chunks(of_a_point) {
                for (dimension, &bits) in (0..).zip(point) {
                    answered += usize::from(self.coordinate(rest, reference, dimension, bits));
                }
            }
            self.same(|| format!("elements answered of reference {reference:#x}"), answered, own.len());
            for item in row.items {
                let row::Item { kind, scale, length, .. } = row::Item::of(item);
                let (value, after) = bytes.split_at(length as usize);
                bytes = after;
                let bits = value.iter().take(8).rev().fold(0, |bits, &byte| bits << 8 | u64::from(byte));
                let answered = self.value(kind as u8, scale as u8, bits);
                self.same(|| format!("an item of type {kind} and scale {scale} is answered"), answered, true);
            }
        }
        self.same(|| "elements and bytes left over".into(), (elements.len(), bytes.len()), (0, 0));
    }
}

/// The archive's number of a unit, and its byte.
pub(super) fn unit_numbers(unit: Unit) -> (u64, u64) {
    match unit {
        Unit::DevicePoints => (units::DEVICE_POINTS, 0),
        Unit::Metres => (units::METRES, 0),
        Unit::Radians => (units::RADIANS, 0),
        Unit::Degrees => (units::DEGREES, 0),
        Unit::Unknown(byte) => (units::UNKNOWN_UNIT, u64::from(byte)),
    }
}

/// The archive's number of what an element is, and its bits.
fn number_numbers(number: Number) -> (u64, u64) {
    match number {
        Number::Whole(whole) => (kinds::WHOLE, (whole as f64).to_bits()),
        Number::Single(value) => (kinds::SINGLE, value.to_bits()),
        Number::Double(value) => (kinds::DOUBLE, value.to_bits()),
        Number::NotNumber(bits) => (kinds::NAN, bits),
    }
}
