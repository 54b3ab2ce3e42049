//! Tails of text fields (document 02, request 6): what is read before them, what
//! is told of them, and the sheet without them.

use super::*;
use crate::{cleared, corners, index_build, read, record_at, select, unit, write, Tails};

/// The four text fields: where each starts, and its length.
const FIELDS: [(usize, usize); 4] = [(16, 12), (28, 32), (64, 32), (408, 32)];

/// A field of a text, a zero, and these bytes at the field's end.
fn field(length: usize, text: &[u8], end: &[u8]) -> Vec<u8> {
    let zeros = vec![0; length - text.len() - end.len()];
    [text, &zeros, end].concat()
}

/// The head's texts, by rising place.
fn texts(head: &Head) -> [&[u8]; 4] {
    [&head.date, &head.designation, &head.title, &head.designation2]
}

/// Q with these bytes in one of its text fields, which are read as this text
/// and this tail; whether the tail is clean; and no other field is read
/// otherwise than in Q. The sheet with the tail cleared is the one of the text
/// alone, reads the same, and is what the reading is written to.
fn reads(number: usize, bytes: &[u8], text: &[u8], tail: &[u8], clean: bool) {
    let (place, length) = FIELDS[number];
    let sheet = changed(&sheet_q(), &[(place, bytes)]);
    let reading = read(&sheet, 1999).unwrap();
    let mut due = texts(&head_e()).map(<[u8]>::to_vec);
    due[number] = text.to_vec();
    assert_eq!(texts(&reading.head), due.each_ref().map(Vec::as_slice));
    assert_eq!(reading.tails.by_place()[number], tail);
    let mut all_clean = [true; 4];
    all_clean[number] = clean;
    assert_eq!((reading.tails.clean(), reading.tails.all_clean()), (all_clean, clean));

    let without = changed(&sheet, &[(place, &field(length, text, &[]))]);
    assert_eq!(cleared(&sheet), without);
    assert_eq!(without == sheet, clean);
    assert_eq!(write(1999, &reading.head, &reading.table, sheet.len()).as_ref(), Ok(&without));
    let again = read(&without, 1999).unwrap();
    assert!(again.tails.all_clean());
    assert_eq!((&again.head, &again.table, again.records), (&reading.head, &reading.table, reading.records));
    let dirt: u64 = tail.iter().map(|&byte| u64::from(byte)).sum();
    assert_eq!(again.sum + dirt, reading.sum);
}

#[test]
fn each_field_dirty() {
    for (number, (_, length)) in FIELDS.into_iter().enumerate() {
        let behind = length - 3;
        for end in [&b"x"[..], b"\xFF", b"xyz", b"x\0y", b"x\0\0"] {
            let tail = field(behind, &[], end);
            reads(number, &field(length, b"ab", end), b"ab", &tail, false);
        }
        let old = vec![b'o'; behind];
        reads(number, &[b"ab\0", &old[..]].concat(), b"ab", &old, false);
        // The first byte behind the zero alone.
        let first = [b"o", &vec![0; behind - 1][..]].concat();
        reads(number, &[b"ab\0", &first[..]].concat(), b"ab", &first, false);
        reads(number, &field(length, b"ab", &[]), b"ab", &vec![0; behind], true);
    }
}

#[test]
fn an_empty_text_before_letters() {
    for (number, (_, length)) in FIELDS.into_iter().enumerate() {
        let old = vec![b'o'; length - 1];
        reads(number, &[b"\0", &old[..]].concat(), b"", &old, false);
        reads(number, &vec![0; length], b"", &vec![0; length - 1], true);
    }
}

#[test]
fn a_text_that_fills_its_field() {
    for (number, (_, length)) in FIELDS.into_iter().enumerate() {
        // No byte is left behind its zero, and so none is dirty.
        let longest = vec![b'x'; length - 1];
        reads(number, &field(length, &longest, &[]), &longest, b"", true);
        // One is left, at the field's end.
        let shorter = &longest[1..];
        reads(number, &field(length, shorter, b"x"), shorter, b"x", false);
        reads(number, &field(length, shorter, &[]), shorter, &[0], true);
    }
}

#[test]
fn no_zero_at_all() {
    for (place, length) in FIELDS {
        let full = vec![b'x'; length];
        let sheet = changed(&sheet_p(), &[(place, &full)]);
        assert_eq!(read(&sheet, 2017), Err(refused(6, place as u64)));
        // A zero before the field and one behind it are none of its own.
        let zeros_about = changed(&sheet, &[(place - 1, &[0]), (place + length, &[0])]);
        assert_eq!(read(&zeros_about, 2017), Err(refused(6, place as u64)));
        // There is no tail to be cleared.
        assert_eq!(cleared(&sheet), sheet);
    }
}

/// "By rising place", and the sum before the texts.
#[test]
fn the_first_field_without_a_zero() {
    let full = [b'x'; 32];
    for first in 0..FIELDS.len() {
        let (place, _) = FIELDS[first];
        let changes: Vec<(usize, &[u8])> = FIELDS[first..].iter().map(|&(place, length)| (place, &full[..length])).collect();
        let sheet = changed(&sheet_p(), &changes);
        assert_eq!(read(&sheet, 2017), Err(refused(6, place as u64)));
        // A dirty tail before it changes nothing.
        let dirty: Vec<(usize, &[u8])> = FIELDS[..first].iter().map(|&(place, length)| (place + length - 1, &b"x"[..])).collect();
        assert_eq!(read(&changed(&sheet, &dirty), 2017), Err(refused(6, place as u64)));
        let mut wrong_sum = sheet;
        wrong_sum[12] ^= 1;
        assert_eq!(read(&wrong_sum, 2017), Err(refused(5, 12)));
    }
    // A tail is summed as any other byte is.
    let mut dirty = sheet_p();
    dirty[27] = b'x';
    assert_eq!(read(&dirty, 2017), Err(refused(5, 12)));
    // A fault of a later field, behind tails that are dirty.
    let faulty = changed(&sheet_p(), &[(27, b"x"), (59, b"x"), (95, b"x"), (96, &[0]), (439, b"x")]);
    assert_eq!(read(&faulty, 2017), Err(refused(7, 96)));
}

/// All four at once: 12 and 3 times 32 bytes, of which the texts and their zeros
/// take 4 + 1, 5 + 1, 1 and 2 + 1.
#[test]
fn all_four_dirty() {
    let date = b"1999\0" as &[u8];
    let designation = b"N-37-\0" as &[u8];
    let dirty = changed(
        &sheet_q(),
        &[
            (16, &[date, &[1; 7]].concat()),
            (28, &[designation, &[2; 26]].concat()),
            (64, &[&[0], &[3; 31][..]].concat()),
            (408, &[b"no\0", &[4; 29][..]].concat()),
        ],
    );
    let clean =
        changed(&sheet_q(), &[(16, &field(12, b"1999", &[])), (28, &field(32, b"N-37-", &[])), (408, &field(32, b"no", &[]))]);
    let (of_dirty, of_clean) = (read(&dirty, 1999).unwrap(), read(&clean, 1999).unwrap());
    let tails = Tails { date: vec![1; 7], designation: vec![2; 26], title: vec![3; 31], designation2: vec![4; 29] };
    assert_eq!(of_dirty.tails, tails);
    assert_eq!((tails.clean(), of_clean.tails.clean()), ([false; 4], [true; 4]));
    assert_eq!(of_dirty.sum - of_clean.sum, 7 + 2 * 26 + 3 * 31 + 4 * 29);
    assert_eq!((&of_dirty.head, &of_dirty.table), (&of_clean.head, &of_clean.table));
    assert_eq!((cleared(&dirty), cleared(&clean)), (clean.clone(), clean.clone()));
    assert_eq!(write(1999, &of_dirty.head, &of_dirty.table, usize::MAX), Ok(clean.clone()));
    // What else is asked of a sheet is answered as if it were clean.
    assert_eq!(record_at(&dirty, 1999, 0), record_at(&clean, 1999, 0));
    assert_eq!((unit(&dirty, 1999), corners(&dirty, 1999)), (unit(&clean, 1999), corners(&clean, 1999)));
    assert_eq!(index_build(&dirty, 1999, usize::MAX), index_build(&clean, 1999, usize::MAX));
    assert_eq!(select(&dirty, 1999, 0, usize::MAX), select(&clean, 1999, 0, usize::MAX));
}

/// Bytes that are no sheet, of any length.
#[test]
fn what_is_no_sheet_is_cleared_too() {
    assert_eq!(cleared(&[]), []);
    assert_eq!(cleared(&[7; 451]), [7; 451]);
    let zeros = cleared(&[0; 452]);
    assert_eq!(zeros, [0; 452]);
    // Only the sum is put right where no field has a zero.
    let sevens = cleared(&[7; 452]);
    assert_eq!((sevens.len(), &sevens[12..16]), (452, &(7 * 448u32).to_le_bytes()[..]));
    assert!(sevens[..12].iter().chain(&sevens[16..]).all(|&byte| byte == 7));
}
