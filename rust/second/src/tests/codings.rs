//! The three codings: which character a byte is, there and back, refusals.

use super::*;
use crate::codings::pair;
use crate::{from_utf16, to_utf16};

const DOS: u32 = 0;
const WINDOWS: u32 = 1;
const KOI8: u32 = 2;
const CODINGS: [u32; 3] = [DOS, WINDOWS, KOI8];

const MAPPINGS: [&str; 3] =
    [include_str!("../../codings/cp866.txt"), include_str!("../../codings/cp1251.txt"), include_str!("../../codings/koi8r.txt")];

/// The byte of page 1251 that has no character.
const WITHOUT: u8 = 0x98;

const RUSSIAN: &str = "АБВГДЕЖЗИЙКЛМНОПРСТУФХЦЧШЩЪЫЬЭЮЯабвгдежзийклмнопрстуфхцчшщъыьэюя";

/// The letters of KOI8-R from 0xC0 on, which follow Latin ones.
const RUSSIAN_OF_KOI8: &str = "юабцдефгхийклмнопярстужвьызшэщчъЮАБЦДЕФГХИЙКЛМНОПЯРСТУЖВЬЫЗШЭЩЧЪ";

fn units(text: &str) -> Vec<u16> {
    text.encode_utf16().collect()
}

/// Whether the bytes are this text in the coding, there and back.
fn holds(coding: u32, bytes: &[u8], text: &str) {
    assert_eq!(to_utf16(coding, bytes, usize::MAX), Ok(units(text)));
    assert_eq!(from_utf16(coding, &units(text), usize::MAX).as_deref(), Ok(bytes));
}

fn bytes(ranges: &[std::ops::RangeInclusive<u8>]) -> Vec<u8> {
    ranges.iter().flat_map(Clone::clone).collect()
}

#[test]
fn every_line_of_a_mapping_is_taken() {
    for (mapping, without) in MAPPINGS.into_iter().zip([None, Some(WITHOUT), None]) {
        let mut lines = mapping.lines();
        assert!(lines.next().unwrap().starts_with("# The published Unicode mapping of "));
        for byte in 0..=255 {
            let line = lines.next().unwrap();
            match pair(line) {
                Some((stated, _)) => assert_eq!(stated, byte),
                None => assert_eq!((Some(byte), line), (without, "0x98 -")),
            }
        }
        assert_eq!(lines.next(), None);
    }
}

#[test]
fn letters() {
    holds(DOS, &bytes(&[0x80..=0xAF, 0xE0..=0xEF]), RUSSIAN);
    holds(WINDOWS, &bytes(&[0xC0..=0xFF]), RUSSIAN);
    holds(KOI8, &bytes(&[0xC0..=0xFF]), RUSSIAN_OF_KOI8);
    holds(DOS, &[0xF0, 0xF1, 0xFC, 0xF8, 0xFF], "Ёё№°\u{A0}");
    holds(WINDOWS, &[0xA8, 0xB8, 0xB9, 0xB0, 0xA0], "Ёё№°\u{A0}");
    holds(KOI8, &[0xB3, 0xA3, 0x9C, 0x9A], "Ёё°\u{A0}");
    holds(DOS, &[0xB0, 0xB3, 0xDB, 0xF9, 0xFA, 0xFE], "░│█∙·■");
    holds(WINDOWS, &[0x80, 0x88, 0x97, 0x99, 0xAB, 0xBB], "Ђ€—™«»");
    holds(KOI8, &[0x80, 0x8D, 0x93, 0x95, 0x9E, 0xBF], "─█⌠∙·©");
}

#[test]
fn ascii_with_its_controls_is_itself() {
    let ascii: Vec<u8> = (0..0x80).collect();
    for coding in CODINGS {
        holds(coding, &ascii, std::str::from_utf8(&ascii).unwrap());
    }
}

/// "no two bytes of one coding share a character, and turning there and back
/// gives the same bytes"; and no unit has a byte that is not a character's.
#[test]
fn there_and_back() {
    for (coding, count) in CODINGS.into_iter().zip([256, 255, 256]) {
        let text: Vec<u8> = (0..=255).filter(|&byte| (coding, byte) != (WINDOWS, WITHOUT)).collect();
        let mut turned = to_utf16(coding, &text, 256).unwrap();
        assert_eq!(from_utf16(coding, &turned, 256), Ok(text));
        let backwards = (0..=u16::MAX).filter(|&unit| from_utf16(coding, &[unit], 1).is_ok());
        turned.sort_unstable();
        turned.dedup();
        assert_eq!((turned.len(), backwards.collect::<Vec<_>>()), (count, turned));
    }
}

#[test]
fn bytes_without_a_character() {
    for coding in CODINGS {
        let refused = if coding == WINDOWS { Err(refused(17, 2)) } else { Ok(()) };
        assert_eq!(to_utf16(coding, &[0, 1, WITHOUT, WITHOUT], 4).map(drop), refused);
    }
    assert_eq!(to_utf16(WINDOWS, &[WITHOUT], 1), Err(refused(17, 0)));
}

#[test]
fn units_without_a_byte() {
    // A surrogate pair, what is no character, the mark of an order of bytes,
    // and U+0098, which is no character of page 1251 either.
    for unit in (0xD800..=0xDFFF).chain([0xFFFF, 0xFFFE, 0xFEFF, 0x98, 0x100, 0x410 + 0x8000]) {
        for coding in CODINGS {
            assert_eq!(from_utf16(coding, &[0x41, unit, unit], 3), Err(refused(17, 1)));
        }
    }
    // № and © are not in all three.
    assert_eq!(from_utf16(KOI8, &units("№"), 1), Err(refused(17, 0)));
    assert_eq!(from_utf16(DOS, &units("A©"), 2), Err(refused(17, 1)));
}

#[test]
fn refusals_have_an_order() {
    for other in [3, 4, 97, 255, 256, 0x8000_0000, 0x8000_0001, u32::MAX] {
        assert_eq!(to_utf16(other, &[WITHOUT], 0), Err(refused(16, 0)));
        assert_eq!(from_utf16(other, &[0xFFFF], 0), Err(refused(16, 0)));
        assert_eq!(to_utf16(other, &[], 0), Err(refused(16, 0)));
        assert_eq!(from_utf16(other, &[], 9), Err(refused(16, 0)));
    }
    assert_eq!(to_utf16(WINDOWS, &[0x41, 0x42, WITHOUT], 0), Err(refused(17, 2)));
    assert_eq!(from_utf16(WINDOWS, &[0x41, 0x42, 0xFFFF], 2), Err(refused(17, 2)));
    for coding in CODINGS {
        assert_eq!(to_utf16(coding, &[0x41, 0x42], 1), Err(refused(15, 0)));
        assert_eq!(from_utf16(coding, &[0x41, 0x42], 0), Err(refused(15, 0)));
        assert_eq!(to_utf16(coding, &[0x41, 0x42], 2), Ok(vec![0x41, 0x42]));
        assert_eq!(from_utf16(coding, &[0x41, 0x42], 3), Ok(vec![0x41, 0x42]));
        assert_eq!((to_utf16(coding, &[], 0), from_utf16(coding, &[], 0)), (Ok(vec![]), Ok(vec![])));
    }
}
