//! Texts of the three codings, and units of UTF-16. A stranger in them is a
//! byte that has no character, or a unit that mostly has no byte.

use crate::judge::Judge;
use crate::numbers::Numbers;
use std::sync::LazyLock;
use sxf_sys::codings::{DOS, KOI8, WINDOWS};

const CODINGS: [u32; 3] = [DOS, WINDOWS, KOI8];

/// Numbers that are no coding, among them some whose low byte is one.
const NO_CODINGS: [u32; 9] = [3, 97, 255, 256, 257, 0x1_0000, 0x8000_0000, 0x8000_0001, u32::MAX];

/// "Byte 0x98 of page 1251 has no character" (document 02).
const WITHOUT: u8 = 0x98;

/// A byte and its character.
type Pair = (u8, u16);

/// The bytes of each coding that have a character, in order.
static PAIRS: LazyLock<[Vec<Pair>; 3]> = LazyLock::new(|| {
    let pair = |coding, byte| second::to_utf16(coding, &[byte], 1).ok().map(|units| (byte, units[0]));
    CODINGS.map(|coding| (0..=255).filter_map(|byte| pair(coding, byte)).collect())
});

/// How many of them, the first ones, are ASCII.
const ASCII: usize = 0x80;

/// What a coding has, or another if it is none.
fn pairs(coding: u32) -> &'static [Pair] {
    PAIRS.get(coding as usize).unwrap_or(&PAIRS[0])
}

/// One value of a byte: alone, and as the upper byte of a unit with all lower
/// ones; as the length of texts that have one stranger, at each place; and as
/// the low byte of its place in a long text.
pub fn byte(judge: &mut Judge, value: u8, numbers: &mut Numbers) {
    for coding in CODINGS.into_iter().chain(NO_CODINGS) {
        alone(judge, coding, value);
    }
    for coding in CODINGS {
        places(judge, coding, usize::from(value), numbers);
    }
    far(judge, value);
    judge.accepted = true;
}

/// The byte, and each of the 256 units, with no room, its own room and more.
fn alone(judge: &mut Judge, coding: u32, value: u8) {
    for room in [0, 1, 2] {
        let before = judge.disagreements.len();
        judge.to_utf16(coding, &[value], room);
        judge.context(before, || format!("byte {value:#04x}"));
        for lower in 0..=255 {
            let unit = u16::from_be_bytes([value, lower]);
            let before = judge.disagreements.len();
            judge.from_utf16(coding, &[unit], room);
            judge.context(before, || format!("unit {unit:#06x}"));
        }
    }
}

/// A text and units of this length, with a stranger at each place alone, with
/// room and without.
fn places(judge: &mut Judge, coding: u32, length: usize, numbers: &mut Numbers) {
    let (mut text, mut units) = drawn_pairs(numbers, coding, length).into_iter().unzip::<_, _, Vec<_>, Vec<_>>();
    for index in 0..length {
        let room = numbers.pick(&[length, length - 1, 0]);
        let (byte, unit) = (text[index], units[index]);
        (text[index], units[index]) = (WITHOUT, stranger(numbers, coding));
        let before = judge.disagreements.len();
        judge.to_utf16(coding, &text, room);
        judge.from_utf16(coding, &units, room);
        judge.context(before, || format!("byte {WITHOUT:#04x} or unit {:#06x} at {index}", units[index]));
        (text[index], units[index]) = (byte, unit);
    }
}

/// A stranger at a place that takes more than two bytes.
fn far(judge: &mut Judge, value: u8) {
    let place = 0x1_0000 + usize::from(value);
    let (mut text, mut units) = (vec![b'A'; place + 1], vec![u16::from(b'A'); place + 1]);
    (text[place], units[place]) = (WITHOUT, STRANGE[0]);
    judge.to_utf16(WINDOWS, &text, 0);
    judge.from_utf16(WINDOWS, &units, 0);
}

/// A text that is turned there, and units that are turned back; the text says
/// whether the case is accepted.
pub fn drawn(judge: &mut Judge, numbers: &mut Numbers) {
    let (coding, length) = (any_coding(numbers), any_length(numbers));
    judge.note(format!("a text of {length} bytes in coding {coding:#x}"));
    let mut text: Vec<u8> = drawn_pairs(numbers, coding, length).into_iter().map(|(byte, _)| byte).collect();
    for index in spoilt(numbers, length) {
        text[index] = WITHOUT;
    }
    judge.accepted = judge.text(coding, &text, numbers);

    let (coding, length) = (any_coding(numbers), any_length(numbers));
    judge.note(format!("{length} units for coding {coding:#x}"));
    let mut units: Vec<u16> = drawn_pairs(numbers, coding, length).into_iter().map(|(_, unit)| unit).collect();
    for index in spoilt(numbers, length) {
        units[index] = stranger(numbers, coding);
    }
    judge.units(coding, &units, numbers);
}

/// Mostly one of the three.
fn any_coding(numbers: &mut Numbers) -> u32 {
    match numbers.below(32) {
        0 => numbers.pick(&NO_CODINGS),
        1 => numbers.of_bits(32) as u32,
        _ => numbers.pick(&CODINGS),
    }
}

/// The pieces in which a loop may go through a text.
const PIECES: [u64; 5] = [4, 8, 16, 32, 64];

/// Nothing; some whole pieces, or one more or less than they have; or any
/// number, now and then some thousands, and seldom more than two bytes count.
fn any_length(numbers: &mut Numbers) -> usize {
    let length = match numbers.below(16) {
        _ if numbers.chance(1, 2000) => numbers.between(0xFFFF, 0x1_2000),
        0 => 0,
        1..=8 => {
            let whole = numbers.pick(&PIECES) * numbers.mostly(8, 64);
            (whole + numbers.below(3)).saturating_sub(1)
        }
        _ => numbers.mostly(100, 4000),
    };
    length as usize
}

/// So many bytes that have a character, with it: of ASCII alone, of the rest
/// alone, or of all.
fn drawn_pairs(numbers: &mut Numbers, coding: u32, length: usize) -> Vec<Pair> {
    let all = pairs(coding);
    let (ascii, rest) = all.split_at(ASCII);
    let from = numbers.pick(&[ascii, rest, all, all]);
    (0..length).map(|_| numbers.pick(from)).collect()
}

/// Where a text of this length has a stranger: in half of the texts nowhere,
/// else at one place or at two, and often at the first or the last.
fn spoilt(numbers: &mut Numbers, length: usize) -> Vec<usize> {
    let count = if length == 0 { 0 } else { numbers.pick(&[0, 0, 0, 1, 1, 2]) };
    let mut place = || match numbers.below(4) {
        0 => 0,
        1 => length - 1,
        _ => numbers.index(length),
    };
    (0..count).map(|_| place()).collect()
}

/// What is likely to be taken wrongly: what is no character, the mark of an
/// order of bytes, the sign for what cannot be shown and what stands in its
/// place, and U+0098 and its neighbours.
const STRANGE: [u16; 10] = [0xFFFF, 0xFFFE, 0xFEFF, 0xFFFD, 0x3F, 0x80, 0x97, 0x98, 0x99, 0xFF98];

/// A stranger to the coding: any half of a surrogate pair, a character of any
/// coding, one beside a character or a bit away from it, one of the blocks that
/// characters are taken from, or any at all.
fn stranger(numbers: &mut Numbers, coding: u32) -> u16 {
    let any_coding = numbers.pick(&CODINGS);
    let [(_, own), (_, of_any)] = [coding, any_coding].map(|coding| numbers.pick(pairs(coding)));
    let number = match numbers.below(9) {
        0 | 1 => numbers.between(0xD800, 0xDFFF),
        2 => u64::from(numbers.pick(&STRANGE)),
        3 => u64::from(of_any),
        4 => u64::from(own.wrapping_add(numbers.pick(&[1, u16::MAX]))),
        5 => u64::from(own) ^ 1 << numbers.below(16),
        6 => numbers.between(0x80, 0x4FF),
        7 => numbers.between(0x2000, 0x25FF),
        _ => numbers.any(),
    };
    number as u16
}
