//! Hopping: hits and misses, each refusal at its place, and what is not looked
//! at.

use super::*;
use crate::{first_with, frame_of, Hit, Hop, LIMIT};

/// Where the three records of `three` start, and where the sheet ends.
const FIRST: usize = 452;
const SECOND: usize = 488;
const THIRD: usize = 524;
const END: usize = 560;

/// Where the frame's code and the record count stand in a sheet, and the total
/// length in a header.
const FRAME: usize = 348;
const COUNT: usize = 440;
const TOTAL: usize = 4;

/// Three records of 36 bytes with the codes 7, 8 and 8.
fn three() -> Vec<u8> {
    sheet_with(&[coded(7, 2), coded(8, 2), coded(8, 2)])
}

/// A sheet with bytes changed, and its sum left as it is.
fn with(place: usize, bytes: &[u8], mut sheet: Vec<u8>) -> Vec<u8> {
    sheet[place..place + bytes.len()].copy_from_slice(bytes);
    sheet
}

fn hit(record: u64, at: usize, total: u64, looked: u64) -> Result<Hop, Refusal> {
    Ok(Hop { hit: Some(Hit { record, at: at as u64, total }), looked })
}

fn no_hit(looked: u64) -> Result<Hop, Refusal> {
    Ok(Hop { hit: None, looked })
}

fn refusal(number: u64, place: usize) -> Result<Hop, Refusal> {
    Err(refused(number, place as u64))
}

#[test]
fn the_first_with_a_code() {
    assert_eq!(first_with(&three(), 7), hit(0, FIRST, 36, 1));
    assert_eq!(first_with(&three(), 8), hit(1, SECOND, 36, 2));
    assert_eq!(first_with(&three(), 9), no_hit(3));
    assert_eq!(first_with(&sheet_p(), 0), hit(0, FIRST, 36, 1));
    assert_eq!(first_with(&sheet_p(), 1), no_hit(1));
    assert_eq!(first_with(&sheet_q(), 0), hit(0, FIRST, 42, 1));
    assert_eq!(first_with(&sheet_e(), 0), no_hit(0));
}

#[test]
fn a_code_has_four_bytes() {
    let own = 0x0403_0201;
    let sheet = sheet_with(&[coded(own, 2)]);
    assert_eq!(first_with(&sheet, own), hit(0, FIRST, 36, 1));
    for bit in 0..32 {
        assert_eq!(first_with(&sheet, own ^ 1 << bit), no_hit(1));
    }
    assert_eq!(first_with(&sheet, own.swap_bytes()), no_hit(1));
    assert_eq!(first_with(&sheet_with(&[coded(u32::MAX, 2)]), u32::MAX), hit(0, FIRST, 36, 1));
}

#[test]
fn the_frame_has_the_code_at_348() {
    assert_eq!(frame_of(&three()), no_hit(3));
    assert_eq!(frame_of(&with(FRAME, &[8], three())), hit(1, SECOND, 36, 2));
    assert_eq!(frame_of(&with(FRAME, &[8, 0, 0, 1], three())), no_hit(3));
    let sheet = sheet_with(&[coded(1, 2), coded(0x0403_0201, 2)]);
    assert_eq!(frame_of(&with(FRAME, &[1, 2, 3, 4], sheet)), hit(1, SECOND, 36, 2));
    // 0 is a code like any other.
    assert_eq!(frame_of(&sheet_p()), hit(0, FIRST, 36, 1));
    assert_eq!(frame_of(&sheet_e()), no_hit(0));
    // The size comes before the code.
    for length in [0, 1, 348, 351, 400, 451] {
        assert_eq!(frame_of(&three()[..length]), refusal(2, 0));
    }
}

#[test]
fn size_and_identifiers() {
    let (no_passport, no_descriptor) = (with(0, &[0x54], three()), with(400, &[0], three()));
    assert_eq!(first_with(&no_passport, 7), refusal(3, 0));
    assert_eq!(first_with(&no_descriptor, 7), refusal(3, 400));
    assert_eq!(first_with(&with(0, &[0x54], no_descriptor.clone()), 7), refusal(3, 0));
    assert_eq!(first_with(&no_passport[..451], 7), refusal(2, 0));
    // Before the first header, and whatever the count.
    assert_eq!(first_with(&with(FIRST, &[0], no_descriptor.clone()), 7), refusal(3, 400));
    assert_eq!(first_with(&with(COUNT, &[0], no_descriptor), 7), refusal(3, 400));
    for bit in 0..8 {
        for place in [0, 3, 400, 403] {
            let mut sheet = three();
            sheet[place] ^= 1 << bit;
            assert_eq!(first_with(&sheet, 7), refusal(3, place & !3));
            assert_eq!(frame_of(&sheet), refusal(3, place & !3));
        }
    }
}

#[test]
fn the_limit() {
    let mut sheet = three();
    sheet.resize(LIMIT, 0xFF);
    assert_eq!(first_with(&sheet, 8), hit(1, SECOND, 36, 2));
    assert_eq!(first_with(&sheet, 9), no_hit(3));
    assert_eq!(frame_of(&sheet), no_hit(3));
    sheet.push(0);
    assert_eq!((first_with(&sheet, 7), frame_of(&sheet)), (refusal(1, 0), refusal(1, 0)));
    assert_eq!(first_with(&vec![0; LIMIT + 1], 7), refusal(1, 0));
    assert_eq!(first_with(&vec![0; LIMIT], 7), refusal(3, 0));
}

#[test]
fn counts() {
    let count = |count: u32| with(COUNT, &count.to_le_bytes(), three());
    assert_eq!(first_with(&count(0), 7), no_hit(0));
    assert_eq!((first_with(&count(1), 7), first_with(&count(1), 8)), (hit(0, FIRST, 36, 1), no_hit(1)));
    assert_eq!((first_with(&count(2), 8), first_with(&count(2), 9)), (hit(1, SECOND, 36, 2), no_hit(2)));
    for more in [4, 1 << 8, 3 | 1 << 16, 1 << 31, 3 | 1 << 31, u32::MAX - 1, u32::MAX] {
        assert_eq!(first_with(&count(more), 8), hit(1, SECOND, 36, 2));
        assert_eq!(first_with(&count(more), 9), refusal(2, END));
    }
}

/// In the header of the second record. What is refused there is refused before
/// its code is looked at, and is not looked at where the first is the hit.
#[test]
fn total_lengths() {
    let total = |total: u32| with(SECOND + TOTAL, &total.to_le_bytes(), three());
    for (own, due) in [
        (0, refusal(10, SECOND + TOTAL)),
        (1, refusal(10, SECOND + TOTAL)),
        (31, refusal(10, SECOND + TOTAL)),
        (32, hit(1, SECOND, 32, 2)),
        (71, hit(1, SECOND, 71, 2)),
        (72, hit(1, SECOND, 72, 2)),
        (73, refusal(2, SECOND + TOTAL)),
        (36 | 1 << 24, refusal(2, SECOND + TOTAL)),
        (1 << 31, refusal(2, SECOND + TOTAL)),
        // In 32 bits the next header would be the first again.
        ((FIRST as u32).wrapping_sub(SECOND as u32), refusal(2, SECOND + TOTAL)),
        (u32::MAX, refusal(2, SECOND + TOTAL)),
    ] {
        assert_eq!(first_with(&total(own), 8), due, "{own}");
        assert_eq!(first_with(&total(own), 7), hit(0, FIRST, 36, 1), "{own}");
        if due.is_err() {
            assert_eq!(first_with(&total(own), 9), due, "{own}");
        }
    }
    // Behind a record that ends elsewhere there is no header, or no room for one.
    assert_eq!(first_with(&total(32), 9), refusal(3, SECOND + 32));
    assert_eq!(first_with(&total(40), 9), refusal(3, SECOND + 40));
    assert_eq!(first_with(&total(41), 9), refusal(2, SECOND + 41));
    assert_eq!(first_with(&total(71), 9), refusal(2, END - 1));
    assert_eq!(first_with(&total(72), 9), refusal(2, END));
}

#[test]
fn order_in_a_header() {
    let no_identifier = with(SECOND, &[0], three());
    for code in [8, 9] {
        assert_eq!(first_with(&no_identifier, code), refusal(3, SECOND));
        // A wrong identifier comes before a wrong total length.
        for total in [[31, 0, 0, 0], [73, 0, 0, 0], [0xFF; 4]] {
            let sheet = with(SECOND + TOTAL, &total, no_identifier.clone());
            assert_eq!(first_with(&sheet, code), refusal(3, SECOND));
        }
        // And too few bytes for a header before both.
        assert_eq!(first_with(&no_identifier[..SECOND + 31], code), refusal(2, SECOND));
        assert_eq!(first_with(&no_identifier[..SECOND + 32], code), refusal(3, SECOND));
    }
    assert_eq!(first_with(&no_identifier, 7), hit(0, FIRST, 36, 1));
}

#[test]
fn cuts() {
    for length in 0..END {
        let sheet = &three()[..length];
        let due = |hit_at: usize, answer: Result<Hop, Refusal>| {
            let records = [FIRST, SECOND, THIRD].into_iter().filter(|&at| at <= hit_at);
            let first_cut = records.into_iter().find(|&at| length < at + 36);
            match first_cut {
                _ if length < FIRST => refusal(2, 0),
                Some(at) if length < at + 32 => refusal(2, at),
                Some(at) => refusal(2, at + TOTAL),
                None => answer,
            }
        };
        assert_eq!(first_with(sheet, 7), due(FIRST, hit(0, FIRST, 36, 1)), "{length}");
        assert_eq!(first_with(sheet, 8), due(SECOND, hit(1, SECOND, 36, 2)), "{length}");
        assert_eq!(first_with(sheet, 9), due(THIRD, no_hit(3)), "{length}");
    }
}

/// "contents and sum aren't checked": each byte that is not looked at may be
/// any, and so may those after the hit.
#[test]
fn what_is_not_looked_at() {
    let looked_at = |place: usize| match place {
        0..4 | 400..404 | 440..444 => true,
        FIRST.. => matches!((place - FIRST) % 36, 0..8 | 12..16),
        _ => false,
    };
    for byte in [0, 0x5A, 0xFF] {
        for (code, after, answer) in [(7, SECOND, hit(0, FIRST, 36, 1)), (8, THIRD, hit(1, SECOND, 36, 2)), (9, END, no_hit(3))] {
            let mut sheet = three();
            for place in (0..END).filter(|&place| !looked_at(place) || place >= after) {
                sheet[place] = byte;
            }
            assert_eq!(first_with(&sheet, code), answer);
            assert_eq!(first_with(&sheet[..after], code), answer);
            sheet.resize(END + 40, byte);
            assert_eq!(first_with(&sheet, code), answer);
        }
    }
}
