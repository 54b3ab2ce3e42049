//! Refusals: a number, a place and a year.
use std::error::Error;
use std::fmt;
use sxf_sys::refusals;

/// A refusal, as the library gives it.
///
/// ```
/// let sheet = [0; 452];
/// let refusal = sxf::check(&sheet, sxf::Setting::Y2017).unwrap_err();
/// assert_eq!((refusal.number, refusal.place, refusal.year), (sxf::Refusal::NOT_SXF, 0, 0));
/// assert_eq!(refusal.to_string(), "refusal 3 NOT SXF at 0 (0x0): an identifier differs, so this is no SXF sheet or it is damaged here");
/// ```
#[derive(Clone, Copy, Debug, PartialEq, Eq, Hash)]
pub struct Refusal {
    /// The documents' number, 1 to 18.
    pub number: u32,
    /// A byte of the sheet, or for the writer's table an index of its numbers, or for [`NO_CHARACTER`](Refusal::NO_CHARACTER) an index of what
    /// was to be turned, or for [`BAD_BLOCK`](Refusal::BAD_BLOCK) a byte of the code index. For [`ROOM`](Refusal::ROOM) of unfolding it is 1, 2 or 3,
    /// the output that is too small.
    pub place: usize,
    /// The year of the feature for [`TOO_NEW`](Refusal::TOO_NEW), else 0.
    pub year: u32,
}

macro_rules! named {
    ($($constant:ident $name:literal $meaning:literal)*) => {
        impl Refusal {
            $(
                #[doc = concat!("The number of ", $name, ": ", $meaning, ".")]
                pub const $constant: u32 = refusals::$constant as u32;
            )*

            /// The document's name.
            pub fn name(&self) -> &'static str {
                match self.number {
                    $(Refusal::$constant => $name,)*
                    _ => "(no number of the document)",
                }
            }

            /// What it means, in a sentence.
            pub fn meaning(&self) -> &'static str {
                match self.number {
                    $(Refusal::$constant => $meaning,)*
                    _ => "the library gave a number that the document does not have",
                }
            }
        }
    };
}

named! {
    TOO_LONG "TOO LONG" "the sheet is longer than 67,108,864 bytes"
    SHORT "SHORT" "the sheet, or what is left of it for a record, is too short"
    NOT_SXF "NOT SXF" "an identifier differs, so this is no SXF sheet or it is damaged here"
    EDITION "EDITION" "a fixed length or the edition is not that of SXF 4.0"
    SUM "SUM" "the sum of the sheet's bytes, of which the low 32 bits are kept, is not the one stored, so the sheet was changed or cut short"
    TEXT "TEXT" "a text field has no zero, a text is too long for its field or has a zero in it, or a closing zero is missing"
    RESERVED "RESERVED" "a flag, code or reserved field has a value that is not allowed"
    TOO_NEW "TOO NEW" "a feature here is later than the setting"
    NOT_CARRIED "NOT CARRIED" "a record has a binding vector or graphics, which are not carried"
    LENGTH "LENGTH" "a length is too small, does not fit, or leaves bytes over"
    COUNT "COUNT" "a count of points needs the mark 65535, which the record lacks, or under the mark differs from the word at +24"
    SEMANTIC "SEMANTIC" "a semantic item has an unknown type, a bad scale or a bad length"
    LEFT_OVER "LEFT OVER" "there are bytes after the last record"
    TABLE "TABLE" "the record table is not well formed here"
    ROOM "ROOM" "a lent output is too small"
    ASK "ASK" "the year asked for is none of the nine settings, or there is no record of that number"
    NO_CHARACTER "NO CHARACTER" "a byte of the text has no character in its coding, or a character has no byte in it"
    BAD_BLOCK "BAD BLOCK" "the block at this byte of the code index has a wrong length, number, count, kind, filling or sum, so this is no index or it is damaged here"
}

impl Refusal {
    /// The refusal of an answer, or success where its number is 0.
    pub(crate) fn answered(number: u64, place: u64, year: u64) -> Result<(), Refusal> {
        match number {
            refusals::OK => Ok(()),
            _ => Err(Refusal { number: low32(number), place: place as usize, year: low32(year) }),
        }
    }

    /// It as it prints, with another sentence in place of its [`meaning`](Refusal::meaning): for a caller who knows which of the two meanings of
    /// [`ASK`](Refusal::ASK) or [`COUNT`](Refusal::COUNT) it has.
    ///
    /// ```
    /// let refusal = sxf::Setting::new(2005).unwrap_err();
    /// assert_eq!(refusal.meaning_here("2005 is no setting"), "refusal 16 ASK at 0 (0x0): 2005 is no setting");
    /// ```
    pub fn meaning_here(&self, meaning: impl fmt::Display) -> String {
        format!("refusal {} {} at {} ({:#x}): {meaning}", self.number, self.name(), self.place, self.place)
    }

    /// There is no such record, or no such setting.
    pub(crate) const NO_SUCH: Refusal = Refusal { number: Refusal::ASK, place: 0, year: 0 };
}

/// Numbers of 32 bits and fewer are answered as 64; one that does not fit would go against the library's contract.
pub(crate) fn low32(number: u64) -> u32 {
    u32::try_from(number).unwrap_or(u32::MAX)
}

pub(crate) fn low16(number: u64) -> u16 {
    u16::try_from(number).unwrap_or(u16::MAX)
}

pub(crate) fn low8(number: u64) -> u8 {
    u8::try_from(number).unwrap_or(u8::MAX)
}

impl fmt::Display for Refusal {
    fn fmt(&self, f: &mut fmt::Formatter<'_>) -> fmt::Result {
        f.write_str(&self.meaning_here(self.meaning()))?;
        if self.year != 0 {
            write!(f, "; it came in {}", self.year)?;
        }
        Ok(())
    }
}

impl Error for Refusal {}

#[cfg(test)]
mod tests {
    use super::*;

    #[test]
    fn is_told_by_number_name_place_and_meaning() {
        let text = Refusal { number: Refusal::TEXT, place: 28, year: 0 };
        assert!(text.to_string().starts_with("refusal 6 TEXT at 28 (0x1c): a text "));
        let new = Refusal { number: Refusal::TOO_NEW, place: 472, year: 2016 };
        assert_eq!(new.to_string(), "refusal 8 TOO NEW at 472 (0x1d8): a feature here is later than the setting; it came in 2016");
    }

    #[test]
    fn each_number_has_a_name() {
        let of = |number| Refusal { number, place: 0, year: 0 }.name();
        assert!((Refusal::TOO_LONG..=Refusal::BAD_BLOCK).all(|n| !of(n).starts_with('(')));
        assert!(of(0).starts_with('(') && of(19).starts_with('('));
    }

    #[test]
    fn the_limit_is_told_as_it_is() {
        let told = Refusal { number: Refusal::TOO_LONG, place: 0, year: 0 }.meaning().replace(',', "");
        assert!(told.contains(&crate::LIMIT.to_string()), "{told}");
    }
}
