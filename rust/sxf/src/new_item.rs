//! Semantic items to be written.
use crate::item::Item;
use crate::{Coding, NoCharacter};
use std::error::Error;
use std::fmt;
use sxf_sys::row::{self, ITEM_WIDTH};

/// The type of a text in UTF-16 of at most 255 units.
const UTF16: u8 = 127;

/// The type of a text in UTF-16 of any length, which came in 2012, and its scale byte.
const LONG: u8 = 128;
const LONG_SCALE: u8 = 0xFF;

/// A semantic item to be written.
#[derive(Clone, Debug, PartialEq, Eq)]
pub struct NewItem {
    /// Its code.
    pub code: u16,
    /// Its type.
    pub kind: u8,
    /// Its scale byte.
    pub scale: u8,
    /// Its value with closing zeros, without the length field of type 128.
    pub bytes: Vec<u8>,
}

impl NewItem {
    /// A number, whole × 10^power, in the smallest of types 1, 2 and 4 that holds it. A power of −128 has no scale byte.
    pub fn decimal(code: u16, whole: i32, power: i8) -> Result<NewItem, NoSuchItem> {
        if power == i8::MIN {
            return Err(NoSuchItem::Power);
        }
        let bytes = whole.to_le_bytes();
        let kind = if i8::try_from(whole).is_ok() {
            1
        } else if i16::try_from(whole).is_ok() {
            2
        } else {
            4
        };
        let bytes = bytes.into_iter().take(usize::from(kind)).collect();
        Ok(NewItem { code, kind, scale: power as u8, bytes })
    }

    /// A double, type 8, with scale byte 0.
    pub fn double(code: u16, value: f64) -> NewItem {
        NewItem { code, kind: 8, scale: 0, bytes: value.to_le_bytes().to_vec() }
    }

    /// A text of one byte a character, at most 255 of them: type 0 for DOS, 126 for Windows. No type has KOI-8.
    pub fn text(code: u16, coding: Coding, text: &[u8]) -> Result<NewItem, NoSuchItem> {
        let kind = match coding {
            Coding::Dos => 0,
            Coding::Windows => 126,
            Coding::Koi8 | Coding::Utf16 => return Err(NoSuchItem::Coding(coding)),
        };
        NewItem::closed(code, kind, coding, text.to_vec())
    }

    /// A text in UTF-16: type 127 for at most 255 units, else type 128, which came in 2012.
    pub fn utf16(code: u16, text: &str) -> NewItem {
        let bytes: Vec<u8> = text.encode_utf16().chain([0]).flat_map(u16::to_le_bytes).collect();
        match u8::try_from(text.encode_utf16().count()) {
            Ok(scale) => NewItem { code, kind: UTF16, scale, bytes },
            Err(_) => NewItem { code, kind: LONG, scale: LONG_SCALE, bytes },
        }
    }

    /// A text of a given type: 0 (DOS), 126 (Windows), 127 or 128 (UTF-16). Its scale byte and its closing zeros are worked out.
    ///
    /// ```
    /// use sxf::NewItem;
    /// // МОСКВА, source document 000's example 2
    /// let item = NewItem::string(8, 0, "МОСКВА")?;
    /// assert_eq!((item.scale, &item.bytes[..]), (6, &[0x8C, 0x8E, 0x91, 0x8A, 0x82, 0x80, 0][..]));
    /// let none = NewItem::string(8, 0, "São Paulo").unwrap_err();
    /// assert_eq!(none.to_string(), "character 'ã' (unit 1) has no byte in DOS");
    /// # Ok::<(), sxf::NoSuchItem>(())
    /// ```
    pub fn string(code: u16, kind: u8, text: &str) -> Result<NewItem, NoSuchItem> {
        let coding = Coding::of_item(kind).ok_or(NoSuchItem::Type(kind))?;
        NewItem::closed(code, kind, coding, coding.bytes(text).map_err(NoSuchItem::NoCharacter)?)
    }

    /// An item of these bytes and closing zeros. But for type 128 its scale byte counts the units before them.
    fn closed(code: u16, kind: u8, coding: Coding, mut bytes: Vec<u8>) -> Result<NewItem, NoSuchItem> {
        let units = bytes.len() / coding.width();
        let scale = match kind {
            LONG => LONG_SCALE,
            _ => u8::try_from(units).map_err(|_| NoSuchItem::TooLong { kind, units })?,
        };
        bytes.resize(bytes.len() + coding.width(), 0);
        Ok(NewItem { code, kind, scale, bytes })
    }

    pub(crate) fn numbers(&self) -> [u64; ITEM_WIDTH] {
        let length = self.bytes.len() as u64;
        row::Item { code: self.code.into(), kind: self.kind.into(), scale: self.scale.into(), length }.numbers()
    }
}

impl From<Item<'_>> for NewItem {
    fn from(Item { code, kind, scale, bytes }: Item<'_>) -> NewItem {
        NewItem { code, kind, scale, bytes: bytes.to_vec() }
    }
}

/// Why no item holds that value.
#[derive(Clone, Copy, Debug, PartialEq, Eq)]
pub enum NoSuchItem {
    /// A power of ten of −128.
    Power,
    /// A text of one byte a character in a coding that no type has.
    Coding(Coding),
    /// A text of a type whose values are no texts.
    Type(u8),
    /// A text that its type does not hold.
    TooLong {
        /// The type.
        kind: u8,
        /// How many characters, or in UTF-16 units, the text has.
        units: usize,
    },
    /// A text with a character that its type's coding does not have.
    NoCharacter(NoCharacter),
}

impl fmt::Display for NoSuchItem {
    fn fmt(&self, f: &mut fmt::Formatter<'_>) -> fmt::Result {
        match *self {
            NoSuchItem::Power => f.write_str("a power of ten of -128 has no scale byte"),
            NoSuchItem::Coding(coding) => write!(f, "no type of item has texts of one byte a character in {coding}"),
            NoSuchItem::Type(kind) => write!(f, "items of type {kind} have no text; those of types 0, 126, 127 and 128 have one"),
            NoSuchItem::TooLong { kind, units } => {
                let counted = if kind == UTF16 { "units" } else { "characters" };
                write!(f, "a text of {units} {counted}, where type {kind} holds {}", u8::MAX)
            }
            NoSuchItem::NoCharacter(none) => none.fmt(f),
        }
    }
}

impl Error for NoSuchItem {}

#[cfg(test)]
mod tests {
    use super::*;
    use crate::{Stray, Text, Value};

    #[test]
    fn items_are_of_the_smallest_type() {
        let decimal = |whole| NewItem::decimal(1, whole, -1).expect("a scale").bytes;
        assert_eq!((decimal(-128), decimal(128), decimal(-40_000)), (vec![0x80], vec![0x80, 0], vec![0xC0, 0x63, 0xFF, 0xFF]));
        assert_eq!(NewItem::decimal(1, 0, -128), Err(NoSuchItem::Power));
        assert_eq!(NewItem::text(1, Coding::Dos, &[1; 256]), Err(NoSuchItem::TooLong { kind: 0, units: 256 }));
        assert_eq!(NewItem::text(1, Coding::Koi8, &[1]), Err(NoSuchItem::Coding(Coding::Koi8)));
        assert_eq!(NewItem::utf16(1, "ab").bytes, [0x61, 0, 0x62, 0, 0, 0]);
        assert_eq!(NewItem::utf16(1, &"a".repeat(256)).kind, 128);
    }

    /// Each type has its coding, its scale byte and its closing zeros, and the characters come back.
    #[test]
    fn strings_are_coded_by_their_type() {
        let stated: [(u8, u8, &[u8]); 4] = [
            (0, 2, &[0xF0, 0xFC, 0]),
            (126, 2, &[0xA8, 0xB9, 0]),
            (127, 2, &[1, 4, 0x16, 0x21, 0, 0]),
            (128, 0xFF, &[1, 4, 0x16, 0x21, 0, 0]),
        ];
        for (kind, scale, bytes) in stated {
            let item = NewItem::string(7, kind, "Ё№").expect("a text");
            assert_eq!(item, NewItem { code: 7, kind, scale, bytes: bytes.to_vec() });
            let Value::Text(text) = (Item { code: 7, kind, scale, bytes }).value() else { panic!("a text") };
            assert_eq!(text.string().as_deref(), Ok("Ё№"), "type {kind}");
        }
        let empty = Value::Text(Text { coding: Coding::Windows, bytes: &[] });
        assert_eq!(
            Item { code: 7, kind: 126, scale: 0, bytes: &NewItem::string(7, 126, "").expect("a text").bytes }.value(),
            empty
        );
    }

    #[test]
    fn a_string_that_is_no_value_is_told_why() {
        // One too many, of one unit and of two; the longest that there may be.
        let long = ["ы".repeat(256), "ы".repeat(255), "😀".repeat(128), format!("{}ы", "😀".repeat(127))];
        for kind in [0, 126, 127] {
            assert_eq!(NewItem::string(1, kind, &long[0]), Err(NoSuchItem::TooLong { kind, units: 256 }));
            assert_eq!(NewItem::string(1, kind, &long[1]).map(|item| item.scale), Ok(255));
        }
        assert_eq!(NewItem::string(1, 127, &long[2]), Err(NoSuchItem::TooLong { kind: 127, units: 256 }));
        assert_eq!(NewItem::string(1, 127, &long[3]).map(|item| item.scale), Ok(255));
        assert_eq!(NewItem::string(1, 128, &long[0]).map(|item| (item.scale, item.bytes.len())), Ok((0xFF, 514)));
        let none = NoCharacter { coding: Coding::Windows, index: 1, what: Stray::Character('║') };
        assert_eq!(NewItem::string(1, 126, "а║"), Err(NoSuchItem::NoCharacter(none)));
        for kind in [1, 2, 4, 8, 77, 125, 129, 255] {
            assert_eq!(NewItem::string(1, kind, ""), Err(NoSuchItem::Type(kind)));
        }
        let told = |kind| NewItem::string(1, kind, &long[0]).expect_err("too long").to_string();
        assert_eq!(told(0), "a text of 256 characters, where type 0 holds 255");
        assert_eq!(told(127), "a text of 256 units, where type 127 holds 255");
        assert_eq!(told(2), "items of type 2 have no text; those of types 0, 126, 127 and 128 have one");
    }
}
