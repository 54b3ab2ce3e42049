//! Text of three codings, one byte a character, turned to UTF-16 and back.
//!
//! Document 02, request 1: "We want text of any of these turned into UTF-16
//! and back, over the published Unicode mapping tables for code pages 866 and
//! 1251 and for KOI8-R." The tables are the published ones themselves, a line
//! for each byte, and are taken apart here.

use crate::refusal::{require, Refusal};
use std::sync::LazyLock;

/// "in three codings (passport byte 97: DOS, Windows, KOI-8)": which number is
/// which.
const DOS: u32 = 0;
const WINDOWS: u32 = 1;
const KOI8: u32 = 2;

/// Every unit of 16 bits, whether it is a character or not.
const UNITS: usize = 1 << 16;

/// A coding: the character of each byte, and the byte of each unit.
struct Coding {
    characters: [Option<u16>; 256],
    bytes: Vec<Option<u8>>,
}

static CODE_PAGE_866: LazyLock<Coding> = LazyLock::new(|| Coding::of(include_str!("../codings/cp866.txt")));
static CODE_PAGE_1251: LazyLock<Coding> = LazyLock::new(|| Coding::of(include_str!("../codings/cp1251.txt")));
static KOI8_R: LazyLock<Coding> = LazyLock::new(|| Coding::of(include_str!("../codings/koi8r.txt")));

impl Coding {
    /// The coding of a published mapping. What no line names has no character,
    /// and no byte.
    fn of(mapping: &str) -> Coding {
        let mut coding = Coding { characters: [None; 256], bytes: vec![None; UNITS] };
        for (byte, character) in mapping.lines().filter_map(pair) {
            coding.characters[usize::from(byte)] = Some(character);
            coding.bytes[usize::from(character)] = Some(byte);
        }
        coding
    }

    /// "The caller names the coding", by the number of passport byte 97.
    /// "Refusals: 16 for any other coding".
    fn named(number: u32) -> Result<&'static Coding, Refusal> {
        match number {
            DOS => Ok(&CODE_PAGE_866),
            WINDOWS => Ok(&CODE_PAGE_1251),
            KOI8 => Ok(&KOI8_R),
            _ => Err(Refusal::new(Refusal::ASK, 0)),
        }
    }
}

/// The byte and the character of a line such as `0x80 0x0410`. The heading is
/// no such line, and neither is one with `-` for a byte without a character.
pub(crate) fn pair(line: &str) -> Option<(u8, u16)> {
    let (byte, character) = line.split_once(' ')?;
    let byte = u8::from_str_radix(byte.strip_prefix("0x")?, 16).ok()?;
    let character = u16::from_str_radix(character.strip_prefix("0x")?, 16).ok()?;
    Some((byte, character))
}

/// Text of a coding as UTF-16, one unit a byte, for an output with room for so
/// many units. All bytes are turned, zeros and controls too, save that "Byte
/// 0x98 of page 1251 has no character".
pub fn to_utf16(coding: u32, text: &[u8], room: usize) -> Result<Vec<u16>, Refusal> {
    let coding = Coding::named(coding)?;
    turned(text, |byte| coding.characters[usize::from(byte)], room)
}

/// UTF-16 as text of a coding, one byte a unit, for an output with room for so
/// many bytes. Half of a surrogate pair is a unit like any other, and has no
/// byte.
pub fn from_utf16(coding: u32, units: &[u16], room: usize) -> Result<Vec<u8>, Refusal> {
    let coding = Coding::named(coding)?;
    turned(units, |unit| coding.bytes[usize::from(unit)], room)
}

/// "17 NO CHARACTER with the index of the byte or 16-bit unit, left to right,
/// then 15."
fn turned<T: Copy, U>(given: &[T], turn: impl Fn(T) -> Option<U>, room: usize) -> Result<Vec<U>, Refusal> {
    let mut all = Vec::with_capacity(given.len());
    for (index, &one) in given.iter().enumerate() {
        let no_character = || Refusal::new(Refusal::NO_CHARACTER, index as u64);
        all.push(turn(one).ok_or_else(no_character)?);
    }
    require(all.len() <= room, Refusal::ROOM, 0)?;
    Ok(all)
}
