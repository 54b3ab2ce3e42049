//! Code indexes: built, kept, read back and asked; and what comes of one that is damaged, or another sheet's.
mod common;

use common::{code, read, record, sample, whole_sum, written, CODES, FIRST_CODE};
use sxf::fields::{header, passport, START};
use sxf::index::{index_length, BLOCK_FULL, BLOCK_SIZE, LONGEST};
use sxf::{select, Entry, Head, Index, Localisation, OtherSheet, Pick, Record, Reference, Refusal, Setting, Sheet};

/// A sheet of so many records, of different lengths.
fn sheet_of(records: usize) -> Vec<u8> {
    let localisations = [Localisation::Linear, Localisation::Areal, Localisation::Point];
    written(Head::PLAIN, (0..records).map(|number| record(code(number), localisations[number % 3], number % 7)))
}

fn built(sheet: &[u8]) -> Index {
    Index::build(sheet, Setting::Y2017).expect("an accepted sheet")
}

/// Counts of records around the ends of blocks, of the new kind and of the old.
const COUNTS: [usize; 13] = [0, 1, 55, 56, 57, 62, 63, 64, 112, 113, 126, 127, 700];

/// A kind of blocks: how many entries a full one has, how many bytes the place of an entry, and the two bytes before the sum.
struct Kind {
    full: usize,
    place: usize,
    before_sum: [u8; 2],
}

/// "63 entries of 8 bytes (class code 4, record place 3, localisation 1), two zero bytes" (02, request 3).
const OLD: Kind = Kind { full: 63, place: 3, before_sum: [0, 0] };

/// "New blocks carry 56 entries of 9 bytes with a 4-byte place, and their two bytes before the sum hold 1 and 0 in place of zeros" (02, request 7).
const NEW: Kind = Kind { full: 56, place: 4, before_sum: [1, 0] };

/// A block by the document's words: "block number from 0 (2 bytes), entry count (2)", the entries, "unused entries are zero", the two bytes of its
/// kind, "and the sum of the first 510 bytes modulo 65536" (02, request 3).
fn block(kind: &Kind, number: u16, entries: &[Entry]) -> Vec<u8> {
    let mut block = [number.to_le_bytes(), (entries.len() as u16).to_le_bytes()].concat();
    for entry in entries {
        block.extend(entry.code.to_le_bytes());
        block.extend(&(entry.place as u32).to_le_bytes()[..kind.place]);
        block.push(entry.localisation_number as u8);
    }
    block.resize(508, 0);
    block.extend(kind.before_sum);
    let sum = whole_sum(&block) as u16;
    block.extend(sum.to_le_bytes());
    block
}

/// An index of these entries. "Blocks are full except the last" (02, request 3).
fn put_together(kind: &Kind, entries: &[Entry]) -> Vec<u8> {
    (0..).zip(entries.chunks(kind.full)).flat_map(|(number, entries)| block(kind, number, entries)).collect()
}

/// What an index of a sheet has, by reading the whole sheet.
fn entries_of(sheet: &Sheet<'_>) -> Vec<Entry> {
    let of = |record: Record<'_>| Entry {
        code: record.code(),
        place: record.place(),
        localisation_number: record.reference().localisation_number(),
    };
    sheet.records().map(of).collect()
}

#[test]
fn an_index_has_an_entry_for_each_record() {
    for count in COUNTS {
        let bytes = sheet_of(count);
        let (sheet, index) = (read(&bytes), built(&bytes));
        assert_eq!(index.entries().collect::<Vec<_>>(), entries_of(&sheet), "{count}");
        assert_eq!((index.entry_count(), index.entries().len()), (count, count));
        assert_eq!((index.block_count(), index.bytes().len()), (count.div_ceil(BLOCK_FULL), index_length(count)), "{count}");
        assert_eq!(sheet.index().as_ref(), Ok(&index));
    }
}

/// "New ones are always written in the new kind" (02, request 7).
#[test]
fn its_bytes_are_the_documents() {
    for count in COUNTS {
        let bytes = sheet_of(count);
        assert!(built(&bytes).bytes() == put_together(&NEW, &entries_of(&read(&bytes))), "{count}");
    }
}

/// "Old blocks stay readable" (02, request 7), and what is selected through them is the same.
#[test]
fn an_old_file_is_read_and_asked_as_a_new_one() {
    for count in COUNTS {
        let bytes = sheet_of(count);
        let (sheet, new) = (read(&bytes), built(&bytes));
        let file = put_together(&OLD, &entries_of(&sheet));
        let old = Index::read(&file[..]).expect("an old index");
        assert_eq!((old.entry_count(), old.block_count()), (count, count.div_ceil(OLD.full)));
        assert!(old.entries().eq(new.entries()), "{count}");
        for code in (FIRST_CODE - 1..=u32::MAX).chain([0]) {
            assert!(old.select(code).eq(new.select(code)), "{code} of {count}");
        }
        // It stays what it was, and the one that is built is another file, unless both are empty.
        assert_eq!((old.bytes() == file, old == new), (true, count == 0));
    }
}

/// "A file holds one kind only" (02, request 7): its first block says which.
#[test]
fn a_block_of_the_other_kind_is_bad() {
    let entries = [Entry { code: 7, place: START, localisation_number: 2 }; OLD.full];
    let bad = |place| Err(Refusal { number: Refusal::BAD_BLOCK, place, year: 0 });
    for (kind, other) in [(&OLD, &NEW), (&NEW, &OLD)] {
        let full = |kind: &Kind, number| block(kind, number, &entries[..kind.full]);
        let last = |kind, number| block(kind, number, &entries[..1]);
        assert_eq!(Index::read([full(kind, 0), last(other, 1)].concat()), bad(BLOCK_SIZE));
        assert_eq!(Index::read([full(kind, 0), full(other, 1), last(kind, 2)].concat()), bad(BLOCK_SIZE));
        assert_eq!(Index::read([full(kind, 0), full(kind, 1), last(other, 2)].concat()), bad(2 * BLOCK_SIZE));
        assert!(Index::read([full(kind, 0), full(kind, 1), last(kind, 2)].concat()).is_ok());
    }
    // 56 entries fill a block of the new kind, and not one of the old.
    assert_eq!(Index::read([block(&OLD, 0, &entries[..NEW.full]), block(&OLD, 1, &entries[..1])].concat()), bad(0));
}

/// Any other two bytes before the sum are no kind.
#[test]
fn a_block_of_no_kind_is_bad() {
    let entries = [Entry { code: 7, place: START, localisation_number: 2 }; NEW.full];
    let bad = |place| Err(Refusal { number: Refusal::BAD_BLOCK, place, year: 0 });
    for before_sum in [[0, 1], [1, 1], [2, 0], [0, 255], [255, 255]] {
        for none in [Kind { before_sum, ..OLD }, Kind { before_sum, ..NEW }] {
            assert_eq!(Index::read(block(&none, 0, &entries[..1])), bad(0), "{before_sum:?}");
            assert_eq!(Index::read([block(&NEW, 0, &entries), block(&none, 1, &entries[..1])].concat()), bad(BLOCK_SIZE));
        }
    }
}

#[test]
fn what_is_kept_is_read_back() {
    for count in COUNTS {
        let index = built(&sheet_of(count));
        assert_eq!(Index::read(index.bytes()).as_ref(), Ok(&index));
        assert_eq!(Index::read(index.clone().into_bytes()), Ok(index));
    }
}

/// "A selection by code through the index must equal the one from reading the whole sheet" (02, request 3).
#[test]
fn a_selection_is_the_same_by_index_by_sheet_and_by_reading_all() {
    for count in COUNTS {
        let bytes = sheet_of(count);
        let (sheet, index) = (read(&bytes), built(&bytes));
        for code in (FIRST_CODE - 1..=u32::MAX).chain([0]) {
            let all: Vec<Pick> = sheet.records().filter(|record| record.code() == code).map(|record| Pick::of(&record)).collect();
            assert_eq!(index.select(code).collect::<Vec<_>>(), all, "{code} of {count}");
            assert_eq!(sheet.select(code).expect("an accepted sheet").collect::<Vec<_>>(), all, "{code} of {count}");
            assert!(select(&bytes, Setting::Y2017, code).expect("an accepted sheet").eq(all.iter().copied()));
            assert_eq!(index.select(code).len(), all.len());
        }
    }
}

#[test]
fn all_records_may_have_one_code() {
    let bytes = written(Head::PLAIN, (0..200).map(|_| record(7, Localisation::Point, 1)));
    let numbers = |picks: sxf::Picks| picks.map(|pick| pick.record).collect::<Vec<_>>();
    assert_eq!(numbers(built(&bytes).select(7)), (0..200).collect::<Vec<_>>());
    assert_eq!(numbers(select(&bytes, Setting::Y2017, 7).expect("an accepted sheet")), (0..200).collect::<Vec<_>>());
}

/// "Refusals: the sheet's own" (02, request 3), at the setting asked for.
#[test]
fn a_sheet_that_is_refused_has_no_index_and_no_selection() {
    for name in ["sum-wrong", "too-short", "not-sxf", "no-zero", "closing", "graphics", "left-over", "n1-not-zero", "dated"] {
        let bytes = sample(name);
        for setting in Setting::ALL {
            let refusal = sxf::check(&bytes, setting).err();
            assert_eq!(Index::build(&bytes, setting).err(), refusal, "{name} at {setting}");
            assert_eq!(select(&bytes, setting, 0).err(), refusal, "{name} at {setting}");
        }
    }
    let too_new = Refusal { number: Refusal::TOO_NEW, place: passport::EPSG.place, year: 2017 };
    let dated = sample("dated");
    assert_eq!(Index::build(&dated, Setting::Y2015), Err(too_new));
    // A sheet that was read is asked for the setting that it was read for.
    let sheet = read(&dated);
    assert_eq!(sheet.index().as_ref(), Ok(&built(&dated)));
    assert_eq!(sheet.select(0).map(|picks| picks.len()), Ok(1));
}

#[test]
fn a_bad_block_is_told_by_its_first_byte() {
    let index = built(&sheet_of(57)).into_bytes();
    let bad = |place| Err(Refusal { number: Refusal::BAD_BLOCK, place, year: 0 });
    for place in 0..index.len() {
        let mut damaged = index.clone();
        damaged[place] ^= 0x10;
        assert_eq!(Index::read(damaged), bad(place / BLOCK_SIZE * BLOCK_SIZE), "{place}");
    }
    for length in 1..BLOCK_SIZE {
        assert_eq!(Index::read(&index[..length]), bad(0), "{length}");
        // The block before the piece is full, so that it may have one after it.
        assert_eq!(Index::read(&index[..BLOCK_SIZE + length]), bad(BLOCK_SIZE), "{length}");
    }
    let (first, second) = index.split_at(BLOCK_SIZE);
    assert_eq!(Index::read([second, first].concat()), bad(0));
    assert_eq!(Index::read([first, first].concat()), bad(BLOCK_SIZE));
    // The second has one entry, so it may have none after it.
    assert_eq!(Index::read([first, second, second].concat()), bad(BLOCK_SIZE));
    let told = Index::read(&index[1..]).expect_err("it is damaged").to_string();
    assert!(told.starts_with("refusal 18 BAD BLOCK at 0 (0x0): the block at this byte of the code index has a wrong "), "{told}");
}

/// There are as many blocks as their numbers can tell apart; one more byte is a bad block.
#[test]
fn an_index_is_as_long_as_block_numbers_go() {
    let entries = [Entry { code: 0, place: 0, localisation_number: 0 }; OLD.full];
    for kind in [OLD, NEW] {
        let mut bytes: Vec<u8> = (0..=u16::MAX).flat_map(|number| block(&kind, number, &entries[..kind.full])).collect();
        assert_eq!(bytes.len(), LONGEST);
        bytes.push(0);
        assert_eq!(Index::read(&bytes[..]), Err(Refusal { number: Refusal::BAD_BLOCK, place: LONGEST, year: 0 }));
        bytes.pop();
        let index = Index::read(bytes).expect("an index");
        assert_eq!((index.block_count(), index.entry_count()), (65_536, 65_536 * kind.full));
    }
}

/// "Entries' contents are not judged": a localisation that no record has is handed on as its number.
#[test]
fn what_entries_hold_is_not_judged() {
    for (kind, place) in [(OLD, 0xFF_FFFF), (NEW, 0xFFFF_FFFF)] {
        let entry = Entry { code: u32::MAX, place, localisation_number: 0xFF };
        let index = Index::read(block(&kind, 0, &[entry])).expect("an index");
        assert_eq!(index.entries().collect::<Vec<_>>(), [entry]);
        let pick = Pick { code: u32::MAX, record: 0, place, localisation_number: 0xFF };
        assert_eq!(index.select(u32::MAX).collect::<Vec<_>>(), [pick]);
        assert_eq!((entry.localisation(), pick.localisation()), (None, None));
        let vector = Entry { localisation_number: 4, ..entry };
        assert_eq!(vector.localisation(), Some(Localisation::Vector));
        assert_eq!(Pick { localisation_number: 5, ..pick }.localisation(), Some(Localisation::LabelTemplate));
    }
}

/// The numbers of the records, or the picks that are none of the sheet's.
fn found(sheet: &Sheet<'_>, picks: impl IntoIterator<Item = Pick>) -> Vec<Result<usize, OtherSheet>> {
    sheet.records_of(picks).map(|record| record.map(|record| record.number())).collect()
}

#[test]
fn picks_lead_to_their_records() {
    let bytes = sheet_of(127);
    let (sheet, index) = (read(&bytes), built(&bytes));
    let picks: Vec<Pick> = index.select(FIRST_CODE).collect();
    let due: Vec<_> = (0..127).step_by(CODES).map(Ok).collect();
    assert_eq!(found(&sheet, picks.clone()), due);
    for pick in &picks {
        let record = sheet.record_of(pick).expect("its record");
        assert_eq!((record.code(), Pick::of(&record)), (FIRST_CODE, *pick));
    }
    // Also in another order, and more than once.
    let back: Vec<Pick> = picks.iter().rev().chain([&picks[3], &picks[3]]).copied().collect();
    assert_eq!(found(&sheet, back), due.iter().rev().copied().chain([Ok(15), Ok(15)]).collect::<Vec<_>>());
}

/// Each of number, place, code and localisation is held against the sheet's own record.
#[test]
fn a_pick_of_another_sheet_is_told() {
    let bytes = written(Head::PLAIN, [record(7, Localisation::Linear, 1), record(7, Localisation::Areal, 2)]);
    let sheet = read(&bytes);
    let second = START + header::SIZE + Reference::default().point_size();
    let own = Pick { code: 7, record: 1, place: second, localisation_number: 1 };
    assert_eq!(sheet.record_of(&own).map(|record| record.number()), Ok(1));
    for pick in [Pick { code: 8, ..own }, Pick { place: second + 1, ..own }, Pick { localisation_number: 2, ..own }] {
        let other = OtherSheet { pick, own: Some(own) };
        assert_eq!(sheet.record_of(&pick).map(|record| record.number()), Err(other));
        assert_eq!(found(&sheet, [pick, own]), [Err(other), Ok(1)]);
    }
    let first = Pick { record: 0, place: START, localisation_number: 0, ..own };
    for record in [2, 3, usize::MAX] {
        let pick = Pick { record, ..own };
        let other = OtherSheet { pick, own: None };
        // Those after it are found all the same.
        assert_eq!(found(&sheet, [own, pick, first]), [Ok(1), Err(other), Ok(0)]);
        let told = format!("it is record {record} at 488 (0x1e8), code 7, localisation 1, where the sheet has no record {record}");
        assert_eq!(other.to_string(), format!("the pick is no record of this sheet: {told}"));
    }
}

/// The index of a sheet before it was changed: a record that moved is told, and one that got the code is not there.
#[test]
fn an_old_index_is_told_where_a_pick_does_not_fit() {
    let (well, fence) = (record(1, Localisation::Point, 1), record(2, Localisation::Linear, 2));
    let old = built(&written(Head::PLAIN, [well.clone(), fence.clone(), well.clone()]));
    let longer = written(Head::PLAIN, [well.clone(), record(2, Localisation::Linear, 3), well.clone()]);
    let sheet = read(&longer);
    let found_by = |sheet: &Sheet<'_>, code| found(sheet, old.select(code));
    assert!(matches!(found_by(&sheet, 1)[..], [Ok(0), Err(OtherSheet { own: Some(_), .. })]));
    let fewer = written(Head::PLAIN, [well.clone(), fence.clone()]);
    assert!(matches!(found_by(&read(&fewer), 1)[..], [Ok(0), Err(OtherSheet { own: None, .. })]));
    // Nothing tells of the second fence here; only building again does.
    let other_code = written(Head::PLAIN, [well, fence, record(2, Localisation::Point, 1)]);
    let sheet = read(&other_code);
    assert_eq!(found_by(&sheet, 2), [Ok(1)]);
    assert!(sheet.index().expect("an accepted sheet") != old);
}
