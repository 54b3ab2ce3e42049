//! Texts with their codings. What a byte of a coding stands for is the library's answer, over the published tables.
use crate::Refusal;
use std::error::Error;
use std::fmt;
use std::iter;
use sxf_sys::{codings, lent};

/// How a text's bytes are coded.
///
/// ```
/// use sxf::Coding;
/// let (dos, windows) = (Coding::Dos.bytes("Газ")?, Coding::Windows.bytes("Газ")?);
/// assert_eq!((dos, windows), (vec![0x83, 0xA0, 0xA7], vec![0xC3, 0xE0, 0xE7]));
/// assert_eq!(Coding::Koi8.string(&[0xE7, 0xC1, 0xDA])?, "Газ");
/// # Ok::<(), sxf::NoCharacter>(())
/// ```
#[derive(Clone, Copy, Debug, PartialEq, Eq, Hash)]
pub enum Coding {
    /// One byte a character, DOS: code page 866.
    Dos,
    /// One byte a character, Windows: code page 1251, whose byte 0x98 has no character.
    Windows,
    /// One byte a character, KOI-8: KOI8-R.
    Koi8,
    /// Two bytes a unit, UTF-16 with the low byte first.
    Utf16,
}

impl Coding {
    /// The coding of a sheet's labels, by byte +97 of the passport; none where it is over 2, as in no accepted sheet.
    pub fn of_labels(byte: u8) -> Option<Coding> {
        [Coding::Dos, Coding::Windows, Coding::Koi8].into_iter().find(|coding| coding.number() == Some(byte.into()))
    }

    /// The coding of an item's text, by the item's type (source document 000, tables 9 and 10); none where the value is no text.
    pub fn of_item(kind: u8) -> Option<Coding> {
        match kind {
            0 => Some(Coding::Dos),
            126 => Some(Coding::Windows),
            127 | 128 => Some(Coding::Utf16),
            _ => None,
        }
    }

    /// How many bytes a unit of its texts has: 2 in UTF-16, else 1. The value of an item closes with so many zeros.
    pub fn width(self) -> usize {
        match self {
            Coding::Dos | Coding::Windows | Coding::Koi8 => 1,
            Coding::Utf16 => 2,
        }
    }

    /// The number that the library has for a coding of one byte a character.
    fn number(self) -> Option<u32> {
        match self {
            Coding::Dos => Some(codings::DOS),
            Coding::Windows => Some(codings::WINDOWS),
            Coding::Koi8 => Some(codings::KOI8),
            Coding::Utf16 => None,
        }
    }

    /// The characters of a text in this coding, zeros and controls too. Turned into [`bytes`](Coding::bytes) they are the same bytes again.
    ///
    /// ```
    /// use sxf::Coding;
    /// let none = Coding::Windows.string(b"No. \x98").unwrap_err();
    /// assert_eq!(none.index, 4);
    /// assert_eq!(none.to_string(), "byte 0x98 at 4 has no character in Windows");
    /// ```
    pub fn string(self, bytes: &[u8]) -> Result<String, NoCharacter> {
        match self.number() {
            Some(number) => self.characters(self.units(number, bytes)?),
            None => self.utf16(bytes),
        }
    }

    /// The units of a text of one byte a character.
    fn units(self, number: u32, bytes: &[u8]) -> Result<Vec<u16>, NoCharacter> {
        let mut units = vec![0; bytes.len()];
        let answer = lent::to_utf16(number, bytes, &mut units);
        // The coding is one of the library's and the room is what it takes, so a refusal is NO CHARACTER.
        Refusal::answered(answer.number, answer.place, answer.year).map_err(|refusal| {
            let byte = bytes.get(refusal.place).copied().unwrap_or_default();
            NoCharacter { coding: self, index: refusal.place, what: Stray::Byte(byte) }
        })?;
        Ok(units)
    }

    fn utf16(self, bytes: &[u8]) -> Result<String, NoCharacter> {
        let (pairs, odd) = bytes.as_chunks();
        let string = self.characters(pairs.iter().map(|&pair| u16::from_le_bytes(pair)))?;
        match odd.first() {
            None => Ok(string),
            Some(&byte) => Err(NoCharacter { coding: self, index: pairs.len(), what: Stray::Byte(byte) }),
        }
    }

    /// The characters of units. It ends at the first unit that is half of a pair, without a look at what follows.
    fn characters(self, units: impl IntoIterator<Item = u16>) -> Result<String, NoCharacter> {
        let mut string = String::new();
        for character in char::decode_utf16(units) {
            let character = character.map_err(|half| {
                let index = string.encode_utf16().count();
                NoCharacter { coding: self, index, what: Stray::Unit(half.unpaired_surrogate()) }
            })?;
            string.push(character);
        }
        Ok(string)
    }

    /// The bytes of a text in this coding, without closing zeros.
    ///
    /// ```
    /// use sxf::Coding;
    /// assert_eq!(Coding::Dos.bytes("№ 5")?, [0xFC, 0x20, 0x35]);
    /// let none = Coding::Koi8.bytes("№ 5").unwrap_err();
    /// assert_eq!(none.to_string(), "character '№' (unit 0) has no byte in KOI-8");
    /// # Ok::<(), sxf::NoCharacter>(())
    /// ```
    pub fn bytes(self, text: &str) -> Result<Vec<u8>, NoCharacter> {
        let units: Vec<u16> = text.encode_utf16().collect();
        let Some(number) = self.number() else {
            return Ok(units.into_iter().flat_map(u16::to_le_bytes).collect());
        };
        let mut bytes = vec![0; units.len()];
        let answer = lent::from_utf16(number, &units, &mut bytes);
        // As above a refusal is NO CHARACTER.
        Refusal::answered(answer.number, answer.place, answer.year).map_err(|refusal| {
            let character = character_at(text, refusal.place).unwrap_or_default();
            NoCharacter { coding: self, index: refusal.place, what: Stray::Character(character) }
        })?;
        Ok(bytes)
    }
}

/// The character that a unit of a text is or belongs to.
fn character_at(text: &str, unit: usize) -> Option<char> {
    text.chars().flat_map(|character| iter::repeat_n(character, character.len_utf16())).nth(unit)
}

impl fmt::Display for Coding {
    fn fmt(&self, f: &mut fmt::Formatter<'_>) -> fmt::Result {
        f.write_str(match self {
            Coding::Dos => "DOS",
            Coding::Windows => "Windows",
            Coding::Koi8 => "KOI-8",
            Coding::Utf16 => "UTF-16",
        })
    }
}

/// A text as stored, with the coding that it is in.
#[derive(Clone, Copy, Debug, PartialEq, Eq)]
pub struct Text<'a> {
    /// How its bytes are coded.
    pub coding: Coding,
    /// Its bytes, without closing zeros.
    pub bytes: &'a [u8],
}

impl Text<'_> {
    /// Its characters.
    pub fn string(&self) -> Result<String, NoCharacter> {
        self.coding.string(self.bytes)
    }
}

/// A text that is not turned: the first of its bytes or units that has no character, or of its characters that has no byte.
#[derive(Clone, Copy, Debug, PartialEq, Eq)]
pub struct NoCharacter {
    /// The coding that the bytes are in, or should be.
    pub coding: Coding,
    /// Where it stands in the text, from 0: the byte, or the 16-bit unit in UTF-16 and in what should be turned into bytes.
    pub index: usize,
    /// What stands there.
    pub what: Stray,
}

/// What has no character, or no byte.
#[derive(Clone, Copy, Debug, PartialEq, Eq)]
pub enum Stray {
    /// A byte; in UTF-16 a last one, which is half of a unit.
    Byte(u8),
    /// A unit of UTF-16 that is half of a pair.
    Unit(u16),
    /// A character.
    Character(char),
}

impl fmt::Display for NoCharacter {
    fn fmt(&self, f: &mut fmt::Formatter<'_>) -> fmt::Result {
        let &NoCharacter { coding, index, what } = self;
        match what {
            Stray::Byte(byte) if coding == Coding::Utf16 => write!(f, "byte {byte:#04x} is half of unit {index} in {coding}"),
            Stray::Byte(byte) => write!(f, "byte {byte:#04x} at {index} has no character in {coding}"),
            Stray::Unit(unit) => write!(f, "unit {unit:#06x} at {index} has no character in {coding}"),
            Stray::Character(character) => write!(f, "character {character:?} (unit {index}) has no byte in {coding}"),
        }
    }
}

impl Error for NoCharacter {}

#[cfg(test)]
mod tests {
    use super::*;

    const ONE_BYTE: [Coding; 3] = [Coding::Dos, Coding::Windows, Coding::Koi8];

    /// All bytes of the three codings in order, without the one that has no character.
    fn with_a_character(coding: Coding) -> Vec<u8> {
        (0..=255).filter(|&byte| (coding, byte) != (Coding::Windows, 0x98)).collect()
    }

    #[test]
    fn each_coding_is_its_own_table() {
        let texts: [(Coding, &[u8]); 4] = [
            (Coding::Dos, &[0x8C, 0xAE, 0xE1, 0xAA, 0xA2, 0xA0, 0xF1]),
            (Coding::Windows, &[0xCC, 0xEE, 0xF1, 0xEA, 0xE2, 0xE0, 0xB8]),
            (Coding::Koi8, &[0xED, 0xCF, 0xD3, 0xCB, 0xD7, 0xC1, 0xA3]),
            (Coding::Utf16, &[0x1C, 4, 0x3E, 4, 0x41, 4, 0x3A, 4, 0x32, 4, 0x30, 4, 0x51, 4]),
        ];
        for (coding, bytes) in texts {
            assert_eq!(Text { coding, bytes }.string().as_deref(), Ok("Москваё"), "{coding}");
            assert_eq!(coding.bytes("Москваё").as_deref(), Ok(bytes), "{coding}");
        }
    }

    /// Controls and zero too; each byte is a character, and the bytes come back.
    #[test]
    fn every_byte_comes_back() {
        for coding in ONE_BYTE {
            let all = with_a_character(coding);
            let string = coding.string(&all).expect("characters");
            assert_eq!((string.chars().count(), coding.bytes(&string)), (all.len(), Ok(all)), "{coding}");
            assert!(string.starts_with("\0\u{1}") && string.contains("\n") && string.contains("~\u{7F}"), "{coding}");
        }
    }

    /// Surrogates are characters in pairs alone.
    #[test]
    fn every_unit_of_utf16_is_a_character_or_named() {
        for unit in 0..=u16::MAX {
            let bytes = [[0x41, 0], unit.to_le_bytes()].concat();
            match Coding::Utf16.string(&bytes) {
                Ok(string) => assert_eq!(Coding::Utf16.bytes(&string), Ok(bytes)),
                Err(none) => {
                    assert!((0xD800..0xE000).contains(&unit));
                    assert_eq!(none, NoCharacter { coding: Coding::Utf16, index: 1, what: Stray::Unit(unit) });
                }
            }
        }
        let pair = [0x3D, 0xD8, 0, 0xDE];
        assert_eq!(Coding::Utf16.string(&pair).as_deref(), Ok("😀"));
        assert_eq!(Coding::Utf16.bytes("😀").as_deref(), Ok(&pair[..]));
    }

    fn told(text: Result<String, NoCharacter>) -> String {
        text.expect_err("no character").to_string()
    }

    #[test]
    fn the_first_without_a_character_is_named() {
        assert_eq!(told(Coding::Windows.string(b"\xC3\x98\x98")), "byte 0x98 at 1 has no character in Windows");
        let none = |index, what| Err(NoCharacter { coding: Coding::Utf16, index, what });
        // A pair before it counts two units.
        let pair_and_half = [0x3D, 0xD8, 0, 0xDE, 0, 0xDC, 7];
        assert_eq!(Coding::Utf16.string(&pair_and_half), none(2, Stray::Unit(0xDC00)));
        assert_eq!(Coding::Utf16.string(&[0x41, 0, 0, 0xD8]), none(1, Stray::Unit(0xD800)));
        assert_eq!(Coding::Utf16.string(&[0x41, 0, 0x42]), none(1, Stray::Byte(0x42)));
        assert_eq!(told(Coding::Utf16.string(&pair_and_half)), "unit 0xdc00 at 2 has no character in UTF-16");
        assert_eq!(told(Coding::Utf16.string(&[0x41, 0, 7])), "byte 0x07 is half of unit 1 in UTF-16");
    }

    #[test]
    fn the_first_without_a_byte_is_named() {
        for coding in ONE_BYTE {
            let none = |index, what| Err(NoCharacter { coding, index, what: Stray::Character(what) });
            assert_eq!(coding.bytes("café, été"), none(3, 'é'));
            // Of a character of two units neither has a byte, and the first is named.
            assert_eq!(coding.bytes("Газ😀é"), none(3, '😀'));
        }
        // Page 866 and KOI8-R have the box drawings, page 1251 has the dash, and KOI8-R has no №.
        assert_eq!(Coding::Windows.bytes("Газ ║").map_err(|none| none.index), Err(4));
        assert_eq!(
            Coding::Dos.bytes("— это").map_err(|none| none.to_string()),
            Err("character '—' (unit 0) has no byte in DOS".into())
        );
        assert_eq!(Coding::Koi8.bytes("Колодец № 5").map_err(|none| none.index), Err(8));
    }

    #[test]
    fn codings_are_told_by_label_byte_and_type() {
        assert_eq!([0, 1, 2].map(Coding::of_labels), ONE_BYTE.map(Some));
        assert!((3..=255).all(|byte| Coding::of_labels(byte).is_none()));
        let of_types: Vec<_> = (0..=255).filter_map(|kind| Some((kind, Coding::of_item(kind)?))).collect();
        assert_eq!(of_types, [(0, Coding::Dos), (126, Coding::Windows), (127, Coding::Utf16), (128, Coding::Utf16)]);
    }

    #[test]
    fn source_document_000s_examples() {
        assert_eq!(Coding::Dos.string(&[0x8C, 0x8E, 0x91, 0x8A, 0x82, 0x80]).as_deref(), Ok("МОСКВА"));
        assert_eq!(Coding::Dos.string(&[0x31, 0x32, 0x37, 0x2C, 0x33, 0x20, 0xAC]).as_deref(), Ok("127,3 м"));
    }
}
