//! Tails, which are what stands after the first zero of a text field, and the
//! old letters that other editors leave there.

use crate::numbers::Numbers;
use crate::sheets::put_sum_right;
use sxf_sys::fields::{descriptor, passport, Field};

/// How many text fields a sheet has.
pub const COUNT: usize = 4;

/// The text fields, by rising place.
pub const FIELDS: [Field; COUNT] = [passport::DATE, passport::DESIGNATION, passport::TITLE, descriptor::DESIGNATION];

/// What a tail has in it that is not zero.
#[derive(Clone, Copy, PartialEq, Eq, Debug)]
pub enum Kind {
    /// It has no bytes: the text and its zero fill the field.
    None,
    /// Nothing.
    Clean,
    /// The first of several bytes, and no other.
    First,
    /// The last of several bytes, which is the field's, and no other.
    Last,
    /// Every byte, of one or more.
    All,
    /// Some other bytes.
    Some,
}

pub const KINDS: [Kind; 6] = [Kind::None, Kind::Clean, Kind::First, Kind::Last, Kind::All, Kind::Some];

/// The kinds that are dirty.
const DIRTY: [Kind; 4] = [Kind::First, Kind::Last, Kind::All, Kind::Some];

/// Which kind a tail is of.
pub fn kind(tail: &[u8]) -> Kind {
    let is_dirty = |&byte: &u8| byte != 0;
    let dirty = tail.iter().filter(|byte| is_dirty(byte)).count();
    match (tail, dirty) {
        ([], _) => Kind::None,
        (_, 0) => Kind::Clean,
        _ if dirty == tail.len() => Kind::All,
        ([first, ..], 1) if is_dirty(first) => Kind::First,
        ([.., last], 1) if is_dirty(last) => Kind::Last,
        _ => Kind::Some,
    }
}

/// Which text fields are dirty, as one number: a bit for each field, the lowest
/// for the date.
pub fn dirty(clean: [bool; COUNT]) -> usize {
    clean.into_iter().rev().fold(0, |dirty, clean| dirty << 1 | usize::from(!clean))
}

/// Leaves old letters in some of the text fields of a sheet that has none so
/// far, or in all, and puts the sum right. A field that is full stays as it is.
pub fn leave(numbers: &mut Numbers, sheet: &mut [u8]) {
    let chosen = numbers.between(1, (1 << COUNT) - 1);
    for (number, field) in FIELDS.into_iter().enumerate() {
        if chosen >> number & 1 == 1 {
            let field = &mut sheet[field.range()];
            let text_length = field.iter().take_while(|&&byte| byte != 0).count();
            let kind = numbers.pick(&DIRTY);
            fill(numbers, &mut field[text_length + 1..], kind);
        }
    }
    put_sum_right(sheet);
}

/// Fills a tail, which is zero, with old letters of this kind.
fn fill(numbers: &mut Numbers, tail: &mut [u8], kind: Kind) {
    let mut letter = || numbers.between(1, 255) as u8;
    match (tail, kind) {
        ([], _) | (_, Kind::None | Kind::Clean) => {}
        ([first, ..], Kind::First) => *first = letter(),
        ([.., last], Kind::Last) => *last = letter(),
        (tail, Kind::All) => tail.fill_with(letter),
        (tail, Kind::Some) => tail.fill_with(|| if numbers.chance(1, 2) { numbers.byte() } else { 0 }),
    }
}

#[cfg(test)]
mod tests {
    use super::*;
    use crate::heads::head;
    use crate::sheets::written;
    use second::Table;

    #[test]
    fn kinds_are_told_apart() {
        for (tail, due) in [
            (&[][..], Kind::None),
            (&[0, 0, 0], Kind::Clean),
            (&[7, 0, 0], Kind::First),
            (&[0, 0, 7], Kind::Last),
            (&[7, 7, 7], Kind::All),
            (&[7], Kind::All),
            (&[0, 7, 0], Kind::Some),
            (&[7, 0, 7], Kind::Some),
        ] {
            assert_eq!(kind(tail), due, "{tail:?}");
        }
        assert_eq!([[true; COUNT], [false; COUNT], [false, true, true, true], [true, true, true, false]].map(dirty), [0, 15, 1, 8]);
    }

    /// Each kind of a dirty tail is left, and the texts before them stay as they
    /// are.
    #[test]
    fn every_kind_is_left() {
        let numbers = &mut Numbers::of_case(1, 0, 0);
        for wanted in DIRTY {
            let mut tail = [0; 20];
            fill(numbers, &mut tail, wanted);
            assert_eq!(kind(&tail), wanted);
        }
        for _ in 0..200 {
            let made = written(1999, head(numbers, 1999), Table::default());
            let mut sheet = made.sheet.clone();
            leave(numbers, &mut sheet);
            assert_eq!(second::read(&sheet, 1999).map(|reading| reading.head), Ok(made.head));
            assert_eq!(second::cleared(&sheet), made.sheet);
        }
    }
}
