//! The tails of a sheet's text fields: what stands after the first zero of the date, the designation, the title and the descriptor's designation.
//!
//! "Two other editors leave old letters after the first zero of a designation, a title or a date. We want such sheets read, so the text-field
//! reading now answers the text before the first zero and whether the rest was clean" (02, request 6). A tail is clean where it has only zeros, or
//! nothing. [`Head`](crate::Head) has the texts, and no tail: writing what was read gives the sheet's bytes with the tails cleared and the sum to
//! match, and where all four are clean, its bytes.
//!
//! ```
//! use sxf::{Head, Setting, Sheet};
//! # let bytes = include_bytes!("../../../samples/old-letters.sxf");
//! let sheet = Sheet::read(bytes, Setting::Y2017)?;
//! assert_eq!(Head::CODING.string(sheet.head()?.title)?, "Мост");
//! assert_eq!(Head::CODING.string(sheet.tails()?.title.letters())?, "ный берег, Ёлкино");
//!
//! let cleared = sheet.cleared()?;
//! let sheet = Sheet::read(&cleared, Setting::Y2017)?;
//! assert_eq!(Head::CODING.string(sheet.head()?.title)?, "Мост");
//! assert!(sheet.tails()?.is_clean());
//! # Ok::<(), Box<dyn std::error::Error>>(())
//! ```
use crate::{Refusal, Setting};
use sxf_sys::fields::{descriptor, passport, Field};
use sxf_sys::lent;

/// The tails of a sheet's text fields, or why the sheet is refused. The whole sheet is checked for them.
///
/// ```
/// use sxf::{tails, Setting};
/// # let bytes = include_bytes!("../../../samples/dirty-tail.sxf");
/// for (field, tail) in tails(bytes, Setting::Y2017)?.dirty() {
///     println!("{field}: {:02x?}", tail.letters());
/// }
/// # assert_eq!(tails(bytes, Setting::Y2017)?.dirty().map(|(field, _)| field).collect::<Vec<_>>(), ["designation"]);
/// # Ok::<(), sxf::Refusal>(())
/// ```
pub fn tails(sheet: &[u8], setting: Setting) -> Result<Tails<'_>, Refusal> {
    let answer = lent::head_of(sheet, setting.year());
    Refusal::answered(answer.number, answer.place, answer.year)?;
    Tails::of(sheet, &answer).ok_or(Refusal { number: Refusal::SHORT, place: 0, year: 0 })
}

/// What stands after the first zero of a text field, up to the field's end.
#[derive(Clone, Copy, Debug, PartialEq, Eq)]
pub struct Tail<'a> {
    /// Its bytes; none where that zero is the field's last byte.
    pub bytes: &'a [u8],
    clean: bool,
}

impl<'a> Tail<'a> {
    /// Whether it has only zeros, or nothing, as the library answered it.
    pub fn is_clean(&self) -> bool {
        self.clean
    }

    /// The old letters: its [bytes up to the last that is not zero](letters).
    pub fn letters(&self) -> &'a [u8] {
        letters(self.bytes)
    }
}

/// The old letters in a tail's bytes: those up to the last that is not zero, with the zeros that stand before it; none where all are zero.
pub fn letters(tail: &[u8]) -> &[u8] {
    let last = tail.iter().rposition(|&byte| byte != 0);
    tail.get(..last.map_or(0, |last| last + 1)).unwrap_or_default()
}

/// The tails of the four text fields.
#[derive(Clone, Copy, Debug, PartialEq, Eq)]
pub struct Tails<'a> {
    /// Of the date at 16.
    pub date: Tail<'a>,
    /// Of the designation at 28.
    pub designation: Tail<'a>,
    /// Of the title at 64.
    pub title: Tail<'a>,
    /// Of the descriptor's designation at 408.
    pub designation2: Tail<'a>,
}

impl<'a> Tails<'a> {
    /// The bytes of an accepted sheet that follow the first zero of each text, and whether they are clean; none where the sheet is too short.
    fn of(sheet: &'a [u8], answer: &sxf_sys::Head) -> Option<Tails<'a>> {
        let tail = |field: Field, length: u64, clean: u64| {
            // The text's first zero stands between it and its tail.
            let (_zero, bytes) = sheet.get(field.range())?.get(usize::try_from(length).ok()?..)?.split_first()?;
            Some(Tail { bytes, clean: clean == 1 })
        };
        Some(Tails {
            date: tail(passport::DATE, answer.date, answer.date_clean)?,
            designation: tail(passport::DESIGNATION, answer.designation, answer.designation_clean)?,
            title: tail(passport::TITLE, answer.title, answer.title_clean)?,
            designation2: tail(descriptor::DESIGNATION, answer.designation2, answer.designation2_clean)?,
        })
    }

    /// Whether all four are clean, so that writing what was read gives the sheet's bytes.
    pub fn is_clean(&self) -> bool {
        self.dirty().next().is_none()
    }

    /// Those that are not clean, each with the name that its text has in [`Head`](crate::Head), in the order of the sheet.
    pub fn dirty(&self) -> impl Iterator<Item = (&'static str, Tail<'a>)> {
        let Tails { date, designation, title, designation2 } = *self;
        let named = [("date", date), ("designation", designation), ("title", title), ("designation2", designation2)];
        named.into_iter().filter(|(_, tail)| !tail.is_clean())
    }
}

#[cfg(test)]
mod tests {
    use super::*;

    #[test]
    fn letters_end_with_the_last_byte_that_is_not_zero() {
        assert_eq!((letters(b"ab\0\0"), letters(b"\0a\0b"), letters(b"\0b\0")), (&b"ab"[..], &b"\0a\0b"[..], &b"\0b"[..]));
        assert_eq!((letters(b"\0\0"), letters(b"")), (&b""[..], &b""[..]));
    }

    /// Whether a tail is clean is the library's answer, field by field.
    #[test]
    fn whether_a_tail_is_clean_is_answered_and_not_worked_out() {
        let sheet = [0; sxf_sys::fields::START];
        let answers = [[1, 0, 0, 0], [0, 1, 0, 0], [0, 0, 1, 0], [0, 0, 0, 1], [1; 4]];
        for [date_clean, designation_clean, title_clean, designation2_clean] in answers {
            let answer = sxf_sys::Head { date_clean, designation_clean, title_clean, designation2_clean, ..Default::default() };
            let tails = Tails::of(&sheet, &answer).expect("the sheet is long enough");
            let clean = [tails.date, tails.designation, tails.title, tails.designation2].map(|tail| u64::from(tail.is_clean()));
            assert_eq!(clean, [date_clean, designation_clean, title_clean, designation2_clean]);
            assert_eq!(
                (tails.is_clean(), tails.dirty().count()),
                (clean == [1; 4], clean.iter().filter(|&&clean| clean == 0).count())
            );
        }
    }

    /// Also where an answer would go against the library's contract.
    #[test]
    fn no_length_panics() {
        let sheet = [0; sxf_sys::fields::START];
        let of = |date, sheet| Tails::of(sheet, &sxf_sys::Head { date, ..Default::default() }).map(|tails| tails.date.bytes.len());
        assert_eq!([0, 11, 12, 13, u64::MAX].map(|date| of(date, &sheet)), [Some(11), Some(0), None, None, None]);
        assert_eq!((of(0, &sheet[..439]), of(0, &[])), (None, None));
    }
}
