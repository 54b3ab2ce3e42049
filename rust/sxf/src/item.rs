//! Semantic items of a record.
use crate::coordinates::Number;
use crate::table::Row;
use crate::{Coding, Text};
use sxf_sys::row::{self, ITEM_WIDTH};
use sxf_sys::{kinds, lent, refusals};

/// What the value of an item is.
#[derive(Clone, Copy, Debug, PartialEq)]
pub enum Value<'a> {
    /// Types 0 (DOS), 126 (Windows), 127 and 128 (UTF-16).
    Text(Text<'a>),
    /// Types 1, 2 and 4: whole × 10^power.
    Decimal {
        /// The integer.
        whole: i64,
        /// The power of ten, −127 to 127.
        power: i64,
    },
    /// Type 8: a double, or the bits of a NaN.
    Double(Number),
    /// Another type, or a value that is not as long as its type says; no accepted sheet has such an item.
    Unread,
}

/// A semantic item, as stored.
#[derive(Clone, Copy, Debug, PartialEq, Eq)]
pub struct Item<'a> {
    /// Its code.
    pub code: u16,
    /// Its type.
    pub kind: u8,
    /// Its scale byte.
    pub scale: u8,
    /// Its value with closing zeros, without the length field of type 128.
    pub bytes: &'a [u8],
}

impl<'a> Item<'a> {
    /// What its value is.
    ///
    /// ```
    /// use sxf::{Item, Value};
    /// // 127.3, source document 000's example 1
    /// let item = Item { code: 1, kind: 2, scale: 0xFF, bytes: &[0xF9, 0x04] };
    /// assert_eq!(item.value(), Value::Decimal { whole: 1273, power: -1 });
    /// ```
    pub fn value(&self) -> Value<'a> {
        let value = match Coding::of_item(self.kind) {
            Some(coding) => self.text(coding),
            None => self.number(),
        };
        value.unwrap_or(Value::Unread)
    }

    /// The text, without its closing zeros: as many as a unit has bytes.
    fn text(&self, coding: Coding) -> Option<Value<'a>> {
        let bytes = self.bytes.get(..self.bytes.len().checked_sub(coding.width())?)?;
        Some(Value::Text(Text { coding, bytes }))
    }

    /// The number of a value of type 1, 2, 4 or 8. Which types have one is the library's answer, and so is what it is. A type with a number
    /// is how many bytes the value has.
    fn number(&self) -> Option<Value<'a>> {
        if self.bytes.len() != usize::from(self.kind) {
            return None;
        }
        let mut bits = [0; 8];
        bits.get_mut(..self.bytes.len())?.copy_from_slice(self.bytes);
        let answer = lent::value_of(self.kind, self.scale, u64::from_le_bytes(bits));
        match answer.kind {
            _ if answer.number != refusals::OK => None,
            kinds::DECIMAL => Some(Value::Decimal { whole: answer.whole, power: answer.power }),
            kinds::DOUBLE => Some(Value::Double(Number::Double(f64::from_bits(answer.bits)))),
            kinds::NAN => Some(Value::Double(Number::NotNumber(answer.bits))),
            _ => None,
        }
    }
}

/// The items of a record.
#[derive(Clone, Copy, Debug)]
pub struct Items<'a> {
    numbers: &'a [[u64; ITEM_WIDTH]],
    values: &'a [u8],
}

impl<'a> Items<'a> {
    pub(crate) fn of(row: &Row<'a>) -> Items<'a> {
        Items { numbers: row.items, values: row.values }
    }
}

impl<'a> Items<'a> {
    fn taken(&self) -> Option<(Item<'a>, Items<'a>)> {
        let (item, numbers) = self.numbers.split_first()?;
        let row::Item { code, kind, scale, length } = row::Item::of(item);
        let (bytes, values) = self.values.split_at_checked(usize::try_from(length).ok()?)?;
        let item =
            Item { code: u16::try_from(code).ok()?, kind: u8::try_from(kind).ok()?, scale: u8::try_from(scale).ok()?, bytes };
        Some((item, Items { numbers, values }))
    }
}

impl<'a> Iterator for Items<'a> {
    type Item = Item<'a>;

    fn next(&mut self) -> Option<Item<'a>> {
        let (item, rest) = self.taken()?;
        *self = rest;
        Some(item)
    }
}

#[cfg(test)]
mod tests {
    use super::*;

    fn value(kind: u8, scale: u8, bytes: &[u8]) -> Value<'_> {
        Item { code: 0, kind, scale, bytes }.value()
    }

    #[test]
    fn texts_lose_their_closing_zeros_and_keep_their_coding() {
        assert_eq!(value(0, 1, &[0x41, 0]), Value::Text(Text { coding: Coding::Dos, bytes: &[0x41] }));
        assert_eq!(value(126, 0, &[0]), Value::Text(Text { coding: Coding::Windows, bytes: &[] }));
        assert_eq!(value(128, 0xFF, &[0x41, 4, 0, 0]), Value::Text(Text { coding: Coding::Utf16, bytes: &[0x41, 4] }));
    }

    #[test]
    fn numbers_are_the_librarys() {
        assert_eq!(value(1, 0, &[0xFF]), Value::Decimal { whole: -1, power: 0 });
        assert_eq!(value(4, 2, &[1, 2, 3, 4]), Value::Decimal { whole: 0x0403_0201, power: 2 });
        assert_eq!(value(8, 0x80, &[0, 0, 0, 0, 0, 0, 0xF0, 0x3F]), Value::Double(Number::Double(1.0)));
        let nan = 0xFFF0_0000_0000_0001_u64;
        assert_eq!(value(8, 0, &nan.to_le_bytes()), Value::Double(Number::NotNumber(nan)));
    }

    #[test]
    fn what_no_sheet_has_is_unread() {
        for (kind, scale, bytes) in
            [(0, 0, &[][..]), (1, 0x80, &[0]), (2, 0, &[0]), (3, 0, &[0, 0, 0]), (8, 0, &[0]), (77, 0, &[0; 77])]
        {
            assert_eq!(value(kind, scale, bytes), Value::Unread, "type {kind}");
        }
    }
}
