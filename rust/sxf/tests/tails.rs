//! The tails of the four text fields: which are clean, what they have, and that writing clears them and nothing else.
mod common;

use common::{cleared, put_sum_right, read, sample, ACCEPTED, DIRTY, TEXT_FIELDS};
use sxf::fields::Field;
use sxf::{tails, write, Head, Refusal, Setting, Sheet, TableRef, Tail};

/// A byte that no sample has in a text field.
const OLD: u8 = 0xEE;

/// A sample with these bytes at the start of a text field and zeros after them, and the sum to match.
fn with(name: &str, field: Field, bytes: &[u8]) -> Vec<u8> {
    let mut sheet = sample(name);
    sheet[field.range()].fill(0);
    sheet[field.place..field.place + bytes.len()].copy_from_slice(bytes);
    put_sum_right(&mut sheet);
    sheet
}

/// The four texts of a head, and the four tails, in the order of their fields.
fn texts<'a>(head: &Head<'a>) -> [&'a [u8]; 4] {
    [head.date, head.designation, head.title, head.designation2]
}

fn four<'a>(sheet: &Sheet<'a>) -> [Tail<'a>; 4] {
    let tails = sheet.tails().expect("an accepted sheet");
    [tails.date, tails.designation, tails.title, tails.designation2]
}

#[test]
fn the_samples_tails_are_told() {
    for name in ACCEPTED {
        let bytes = sample(name);
        let sheet = read(&bytes);
        let found = sheet.tails().expect(name);
        assert_eq!((found.is_clean(), tails(&bytes, Setting::Y2017)), (!DIRTY.contains(&name), Ok(found)), "{name}");
        let head = sheet.head().expect(name);
        for ((_, field), (text, tail)) in TEXT_FIELDS.into_iter().zip(texts(&head).into_iter().zip(four(&sheet))) {
            assert_eq!([text, &[0], tail.bytes].concat(), bytes[field.range()], "{name}");
        }
    }
    let bytes = sample("dirty-tail");
    let found: Vec<_> = read(&bytes).tails().expect("tails").dirty().map(|(field, tail)| (field, tail.letters())).collect();
    assert_eq!(found, [("designation", &b"\0\0\0\0\0\0\0\0\0\0B"[..])]);
    let bytes = sample("old-letters");
    let told = |(field, tail): (_, Tail<'_>)| (field, Head::CODING.string(tail.letters()).expect("characters"));
    let found: Vec<_> = read(&bytes).tails().expect("tails").dirty().map(told).collect();
    let stated = [("date", "5"), ("designation", "А-б"), ("title", "ный берег, Ёлкино"), ("designation2", "-37-012")];
    assert_eq!(found, stated.map(|(field, letters)| (field, letters.to_string())));
}

/// One byte that is not zero, at each place after the first zero of each field, and with each length of the text: only that field is dirty, all
/// that was read is as before, and clearing gives the sheet without that byte.
#[test]
fn a_tail_of_one_byte_is_told_by_its_field_alone() {
    for (number, (name, field)) in TEXT_FIELDS.into_iter().enumerate() {
        for length in 0..field.width - 1 {
            let clean = with("Q", field, &vec![b'x'; length]);
            for place in length + 1..field.width {
                let mut bytes = clean.clone();
                bytes[field.place + place] = OLD;
                put_sum_right(&mut bytes);
                let sheet = read(&bytes);
                assert_eq!(sheet.tails().map(|tails| tails.dirty().map(|(name, _)| name).collect::<Vec<_>>()), Ok(vec![name]));
                let tail = four(&sheet)[number];
                assert_eq!((tail.bytes.len(), tail.letters().len()), (field.width - length - 1, place - length), "{name}, {place}");
                assert_eq!((sheet.head(), sheet.table()), (read(&clean).head(), read(&clean).table()), "{name}, {place}");
                assert!(sheet.cleared().as_ref() == Ok(&clean) && cleared(&bytes) == clean, "{name}, {place}");
            }
        }
    }
}

/// Behind a text of full length nothing stands, and that is clean.
#[test]
fn a_text_of_full_length_has_an_empty_tail() {
    for (number, (name, field)) in TEXT_FIELDS.into_iter().enumerate() {
        let bytes = with("Q", field, &vec![b'x'; field.width - 1]);
        let sheet = read(&bytes);
        let tail = four(&sheet)[number];
        assert_eq!(
            (tail.bytes, tail.is_clean(), texts(&sheet.head().expect(name))[number].len()),
            (&b""[..], true, field.width - 1)
        );
        assert!(sheet.cleared().as_ref() == Ok(&bytes), "{name}");
    }
}

/// "Refusals: in reading, 6 for a text field is now only given when it has no zero at all" (02, request 6).
#[test]
fn a_field_without_a_zero_is_refused() {
    for (name, field) in TEXT_FIELDS {
        let bytes = with("Q", field, &vec![b'x'; field.width]);
        let refusal = Refusal { number: Refusal::TEXT, place: field.place, year: 0 };
        assert_eq!(
            (Sheet::read(&bytes, Setting::Y2017).err(), tails(&bytes, Setting::Y2017)),
            (Some(refusal), Err(refusal)),
            "{name}"
        );
        let meaning =
            "a text field has no zero, a text is too long for its field or has a zero in it, or a closing zero is missing";
        assert_eq!(refusal.meaning(), meaning);
    }
}

/// The writer's rules stay: a text with a zero in it is refused, whatever follows, so that nobody writes old letters.
#[test]
fn no_tail_is_written() {
    let text = &b"N-37\0-012"[..];
    for (number, (name, field)) in TEXT_FIELDS.into_iter().enumerate() {
        let of = |at| if at == number { text } else { b"" };
        let head = Head { date: of(0), designation: of(1), title: of(2), designation2: of(3), ..Head::PLAIN };
        let refusal = write(&head, TableRef::default(), Setting::Y2017).expect_err(name);
        assert_eq!((refusal.number, refusal.place), (Refusal::TEXT, field.place), "{name}");
    }
}

/// The cleared sheet is accepted at the same settings and reads the same, all clean; of a refused sheet the answer is the check's refusal.
#[test]
fn what_is_cleared_reads_the_same_at_each_setting() {
    for name in ["old-letters", "dirty-tail", "dated", "no-zero", "sum-wrong"] {
        let mut bytes = sample(name);
        if name == "dated" {
            bytes[TEXT_FIELDS[2].1.after() - 1] = OLD;
            put_sum_right(&mut bytes);
        }
        for setting in Setting::ALL {
            let refusal = sxf::check(&bytes, setting).err();
            assert_eq!(tails(&bytes, setting).err(), refusal, "{name} at {setting}");
            let Ok(sheet) = Sheet::read(&bytes, setting) else { continue };
            let again = sheet.cleared().expect(name);
            assert!(again == cleared(&bytes) && again != bytes, "{name} at {setting}");
            let clean = Sheet::read(&again, setting).expect(name);
            assert_eq!((clean.head(), clean.table()), (sheet.head(), sheet.table()), "{name} at {setting}");
            assert!(clean.tails().expect(name).is_clean() && clean.cleared().as_ref() == Ok(&again), "{name} at {setting}");
        }
    }
}
